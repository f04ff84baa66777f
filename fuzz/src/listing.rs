//! Fuzzes `listing`: an input is a book. What both programs print has to be equal, byte for byte.

mod books;
mod chosen;
mod common;
mod console;
mod places;
mod words;

use chosen::chosen;
use common::{case_wanted, differs, hexadecimal, reading, tally, Chance};
use console::{Console, Folder};
use second::limits::BOOK_RECORDS;

fuzz_target!(check, mutate);

extern "C" {
    /// The gate's `main`.
    fn gate_main() -> i32;
}

fn check(input: &[u8]) {
    if case_wanted() {
        println!("trial book\nfile both book {}", hexadecimal(input));
        return;
    }
    compare(input);
    if chosen(input, 256) {
        let length = BOOK_RECORDS as usize - 1 + input.len() / 4 % 3;
        if let Some(book) = books::full_book(input, length) {
            compare(&book);
        }
    }
}

fn compare(input: &[u8]) {
    let second = second::listing::listing(input, reading()).into_bytes();
    // Pipes hand over what they have: the book comes in parts now and then.
    let step = input.iter().fold(0u8, |sum, byte| sum.wrapping_add(*byte)) % 8;
    let console = Console::new(input, step, Folder::new(), None, &[]);
    let console = console::run(console, || unsafe { gate_main() });
    if console.output != second {
        differs("listing", &console.output, &second);
    }
    let text = String::from_utf8_lossy(&second);
    let sort = match text.lines().last().unwrap_or("") {
        "granted 0" => "listed, none granted",
        line if line.starts_with("granted") => "listed with grants",
        line => line.split(" at ").next().unwrap_or(line),
    };
    tally(sort);
}

fn mutate(input: &mut Vec<u8>, most: usize, chance: &mut Chance) {
    books::mutate_book(input, most, chance);
}
