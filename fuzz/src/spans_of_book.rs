//! Fuzzes the program `spans`: an input is how many arguments there are (1 byte), each with its length
//! (1 byte), and a book. What both programs print has to be equal, byte for byte, and a book that is not
//! asked for is not read.

mod books;
mod chosen;
mod common;
mod console;
mod escape;
mod places;
mod words;

use chosen::chosen;
use common::{case_wanted, differs, hexadecimal, mutate_bytes, reading, tally, Chance};
use console::{Console, Folder};
use escape::escape;
use second::limits::BOOK_RECORDS;
use second::spans_of_book::{spans_of_book, Asked, USAGE};

fuzz_target!(check, mutate);

extern "C" {
    /// The gate's `main`.
    fn gate_main() -> i32;
}

/// One more than the program takes.
const MOST_ARGUMENTS: usize = 3;

/// Arguments at the edges: of the range, of the digits, of 32 and 64 bits; and no numbers.
const EDGES: [&str; 16] = [
    "63",
    "64",
    "255",
    "256",
    "00000000000000000063",
    "000000000000000000063",
    "4294967296",
    "18446744073709551616",
    "99999999999999999999",
    "",
    "+1",
    "-1",
    " 1",
    "1 ",
    "/",
    ":",
];

fn parts(input: &[u8]) -> (Vec<Vec<u8>>, &[u8]) {
    let Some((&count, mut rest)) = input.split_first() else { return (Vec::new(), input) };
    let mut arguments = Vec::new();
    for _ in 0..usize::from(count) % (MOST_ARGUMENTS + 1) {
        let Some((&length, after)) = rest.split_first() else { break };
        let (argument, after) = after.split_at(after.len().min(usize::from(length)));
        // C hands over what stands before a zero byte.
        arguments.push(argument.split(|&byte| byte == 0).next().unwrap_or(&[]).to_vec());
        rest = after;
    }
    (arguments, rest)
}

fn input_of(arguments: &[Vec<u8>], book: &[u8]) -> Vec<u8> {
    let mut input = vec![arguments.len() as u8];
    for argument in arguments {
        input.push(argument.len() as u8);
        input.extend(argument);
    }
    input.extend(book);
    input
}

fn check(input: &[u8]) {
    let (arguments, book) = parts(input);
    if case_wanted() {
        println!("trial book\nfile both book {}", hexadecimal(book));
        for argument in arguments {
            println!("line both {}", escape(&argument));
        }
        return;
    }
    compare(&arguments, book);
    if chosen(input, 256) {
        let length = BOOK_RECORDS as usize - 1 + input.len() / 4 % 3;
        if let Some(book) = books::full_book(book, length) {
            compare(&arguments, &book);
        }
    }
}

fn compare(arguments: &[Vec<u8>], book: &[u8]) {
    let asked = Asked::by(arguments);
    let printed = |asked: &Asked| spans_of_book(book, asked, reading());
    let second = asked.as_ref().map_or(USAGE.to_string(), printed);
    // Pipes hand over what they have: the book comes in parts now and then.
    let step = book.iter().fold(0u8, |sum, byte| sum.wrapping_add(*byte)) % 8;
    let console = Console::new(book, step, Folder::new(), None, arguments);
    let console = console::run(console, || unsafe { gate_main() });
    if console.output != second.as_bytes() {
        differs(&format!("spans {arguments:?}"), &console.output, second.as_bytes());
    }
    if asked.is_none() && console.at > 0 {
        differs("arguments that aren't taken", b"reads the book", b"doesn't read it");
    }
    let sort = match second.lines().last().unwrap_or("") {
        "spans 0" => "no span",
        line if line.starts_with("spans") => "spans",
        line if line.starts_with("usage") => "usage",
        line => line.split(" at ").next().unwrap_or(line),
    };
    tally(sort);
}

fn mutate(input: &mut Vec<u8>, most: usize, chance: &mut Chance) {
    if chance.one_in(20) {
        return mutate_bytes(input, most);
    }
    let (mut arguments, book) = parts(input);
    let mut book = book.to_vec();
    match chance.below(8) {
        0 => drop(arguments.pop()),
        1 if arguments.len() < MOST_ARGUMENTS => arguments.push(argument(chance)),
        2 if !arguments.is_empty() => {
            let at = chance.below(arguments.len());
            arguments[at] = argument(chance);
        }
        3 if !arguments.is_empty() => {
            let at = chance.below(arguments.len());
            mutate_bytes(&mut arguments[at], 40);
        }
        _ => books::mutate_book(&mut book, most, chance),
    }
    *input = input_of(&arguments, &book);
}

fn argument(chance: &mut Chance) -> Vec<u8> {
    let zeros = "0".repeat(chance.pick(&[0, 0, 0, 1, 17, 18, 19, 20]));
    match chance.below(4) {
        0 => chance.pick(&EDGES).as_bytes().to_vec(),
        _ => format!("{zeros}{}", chance.number(64)).into_bytes(),
    }
}
