//! The listing program in plain Rust; with an argument, the other way.

use plain::book::LONGEST;
use plain::listing::{by_pairs, by_replay, listing};
use std::io::{self, Read, Write};

fn main() -> io::Result<()> {
    let moments = if std::env::args().len() > 1 { by_replay } else { by_pairs };
    let mut bytes = Vec::with_capacity(LONGEST + 1);
    io::stdin().take(LONGEST as u64 + 1).read_to_end(&mut bytes)?;
    io::stdout().write_all(&listing(&bytes, moments)?)
}
