//! The keeper's program in plain Rust.

use plain::keeper::Keeper;
use std::cell::RefCell;
use std::io::{self, BufRead, BufReader, Read, Write};

const BLOCK: usize = 1 << 16;

/// Standard input that writes the gathered answers out before it asks for more; the end of input is
/// asked for, too, so the last answers go out by it.
struct Input<'a> {
    answers: &'a RefCell<Vec<u8>>,
}

impl Read for Input<'_> {
    fn read(&mut self, block: &mut [u8]) -> io::Result<usize> {
        write_out(&mut self.answers.borrow_mut())?;
        io::stdin().read(block)
    }
}

fn write_out(answers: &mut Vec<u8>) -> io::Result<()> {
    let mut out = io::stdout();
    out.write_all(answers)?;
    out.flush()?;
    answers.clear();
    Ok(())
}

fn main() -> io::Result<()> {
    let answers = RefCell::new(Vec::with_capacity(BLOCK));
    let mut input = BufReader::with_capacity(BLOCK, Input { answers: &answers });
    let mut keeper = Keeper::default();
    let mut line = Vec::new();
    while input.read_until(b'\n', &mut line)? > 0 {
        keeper.line(line.strip_suffix(b"\n").unwrap_or(&line), &mut answers.borrow_mut())?;
        line.clear();
    }
    Ok(())
}
