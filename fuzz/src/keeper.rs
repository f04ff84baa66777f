//! Fuzzes `keeper`: an input is a byte that says how standard input comes in parts, the files `a` to `d`
//! (a length in 2 bytes and the bytes of each) and a script. Answers, the time of each answer, and
//! the files afterwards have to be equal.

mod books;
mod common;
mod console;
mod escape;
mod places;
mod scripts;
mod stores;
mod words;

use common::{case_wanted, differs, hexadecimal, mutate_bytes, reading, tally, Chance};
use console::{Console, Expected, Folder, BROKEN, FULL};
use escape::escape;
use second::files::{CantOpen, Files, Memory};
use second::keeper::{run, Keeper};
use second::limits::{BOOK_BYTES, STORE_BYTES};
use std::io::{self, Write};

fuzz_target!(check, mutate);

extern "C" {
    /// The gate's `main`.
    fn gate_main() -> i32;
}

/// The files that an input brings.
const NAMES: [&[u8]; 4] = [b"a", b"b", b"c", b"d"];

struct Input {
    step: u8,
    files: [Vec<u8>; 4],
    script: Vec<u8>,
}

impl Input {
    fn from_bytes(bytes: &[u8]) -> Input {
        let mut rest = bytes;
        let mut take = |length: usize| {
            let (part, after) = rest.split_at(length.min(rest.len()));
            rest = after;
            part.to_vec()
        };
        let step = take(1).first().map_or(0, |byte| byte % 8);
        let files = NAMES.map(|_| {
            let length = take(2);
            take(length.iter().rev().fold(0, |sum, &byte| sum * 256 + usize::from(byte)))
        });
        Input { step, files, script: take(usize::MAX) }
    }

    fn to_bytes(&self) -> Vec<u8> {
        let mut bytes = vec![self.step];
        for file in &self.files {
            let length = file.len().min(usize::from(u16::MAX));
            bytes.extend((length as u16).to_le_bytes());
            bytes.extend(&file[..length]);
        }
        [bytes, self.script.clone()].concat()
    }

    /// The files of the input; and those at the limits, and one whose name isn't UTF-8, that the script names.
    fn folder(&self) -> Folder {
        let own = NAMES.iter().map(|name| name.to_vec()).zip(self.files.clone());
        let is_end = |byte: &u8| *byte == b' ' || *byte == b'\n';
        let named = |name: &[u8]| self.script.split(is_end).any(|word| word == name);
        let limits: [(&[u8], fn() -> Vec<u8>); 5] = [
            (b"over", || vec![0; STORE_BYTES + 2]),
            (b"long", || vec![0; BOOK_BYTES + 1]),
            (b"most", stores::largest),
            // two records more fit
            (b"full", || books::full_book(&books::book_of(0, 3, &[]), 4094).expect("a book")),
            (b"a\xff", || books::book_of(0, 3, &[])),
        ];
        let limits = limits.into_iter().filter(|(name, _)| named(name));
        own.chain(limits.map(|(name, make)| (name.to_vec(), make()))).collect()
    }
}

/// The second program's folder, with the console's full and broken files.
struct Disk(Memory);

impl Files for Disk {
    fn read(&self, name: &[u8], most: usize) -> Result<Vec<u8>, CantOpen> {
        match name.first() {
            Some(&FULL | &BROKEN) => Err(CantOpen),
            _ => self.0.read(name, most),
        }
    }

    fn write(&mut self, name: &[u8], bytes: &[u8]) -> Result<(), CantOpen> {
        self.0.write(name, bytes)?;
        if name[0] == FULL {
            return Err(CantOpen);
        }
        Ok(())
    }
}

struct Said(Expected);

impl Write for &mut Said {
    fn write(&mut self, bytes: &[u8]) -> io::Result<usize> {
        self.0.output.extend(bytes);
        Ok(bytes.len())
    }

    fn flush(&mut self) -> io::Result<()> {
        self.0.marks.push(self.0.output.len());
        Ok(())
    }
}

fn check(bytes: &[u8]) {
    let input = Input::from_bytes(bytes);
    if case_wanted() {
        return print_case(&input);
    }
    let folder = input.folder();
    let mut said = Said(Expected::default());
    let mut keeper = Keeper::new(Disk(Memory { files: folder.clone() }), reading());
    run(&mut keeper, &input.script[..], &mut said).expect("memory takes every byte");
    let console = Console::new(&input.script, input.step, folder, Some(said.0), &[]);
    let console = console::run(console, || unsafe { gate_main() });
    let expected = console.expected.as_ref().expect("it was given");
    expected.compare("the answers", &console.output, expected.output.len());
    compare_folders(&console.folder, &keeper.files.0.files);
    tally_answers(&console.output);
}

fn compare_folders(gate: &Folder, second: &Folder) {
    for name in gate.keys().chain(second.keys()) {
        if name[0] == FULL {
            continue;
        }
        let (left, right) = (gate.get(name), second.get(name));
        if left != right {
            let shown = |file: Option<&Vec<u8>>| file.cloned().unwrap_or(b"no file".to_vec());
            differs(&format!("file {}", name.escape_ascii()), &shown(left), &shown(right));
        }
    }
}

/// The sort of each answer: its first word, and what says more.
fn tally_answers(output: &[u8]) {
    for line in String::from_utf8_lossy(output).lines() {
        let words: Vec<&str> = line.split(' ').collect();
        match words[0] {
            // a line of help
            _ if line.contains("  ") => {}
            "what?" => tally(line),
            "refused" => tally(&words[..2].join(" ")),
            "can't" => tally("can't open"),
            "delivered" if words[1] == "8" => tally("delivered nothing"),
            "models" if words[1..] == ["0"] => tally("models 0"),
            word => tally(word),
        }
    }
}

fn print_case(input: &Input) {
    println!("trial keeper");
    if input.script.last().is_some_and(|&byte| byte != b'\n') {
        println!("open end");
    }
    for (name, bytes) in input.folder() {
        println!("file both {} {}", escape(&name), hexadecimal(&bytes));
    }
    let script = input.script.strip_suffix(b"\n").unwrap_or(&input.script);
    for line in script.split(|&byte| byte == b'\n') {
        println!("line both {}", escape(line));
    }
}

fn mutate(bytes: &mut Vec<u8>, most: usize, chance: &mut Chance) {
    if chance.one_in(16) {
        return mutate_bytes(bytes, most);
    }
    let mut input = Input::from_bytes(bytes);
    if chance.one_in(8) {
        input.step = chance.below(8) as u8;
    }
    if chance.one_in(4) {
        let file = &mut input.files[chance.below(4)];
        match chance.below(8) {
            0 => mutate_bytes(file, 512),
            1..=4 => stores::mutate_store(file, chance),
            _ => books::mutate_book(file, 512, chance),
        }
    } else {
        scripts::mutate_script(&mut input.script, chance);
    }
    *bytes = input.to_bytes();
}
