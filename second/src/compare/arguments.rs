//! Random arguments of `spans`: none, a model, a model and a sheet; and such as aren't taken.

use crate::chance::Chance;
use second::event::{Event, Side};
use second::judge::words;
use second::limits::{ARGUMENT_DIGITS, BOOK_HEADER};

/// The first number past 64 bits has as many digits as an argument may have.
const PAST_64_BITS: u128 = 1 << 64;
const PAST_32_BITS: u128 = 1 << 32;

/// Arguments for the spans of a book, mostly about carriers that it has.
pub fn arguments(chance: &mut Chance, book: &[u8]) -> Vec<Vec<u8>> {
    let mut arguments =
        vec![carrier(chance, book, Side::Model), carrier(chance, book, Side::Sheet)];
    match chance.within(0..=9) {
        0..=2 => arguments.truncate(1),
        3..=6 => (),
        7 => arguments.push(carrier(chance, book, Side::Sheet)),
        _ => {
            let place = chance.place(2);
            let side = [Side::Model, Side::Sheet][place];
            arguments[place] = not_taken(chance, side);
            arguments.truncate(chance.within(place as u32 + 1..=2) as usize);
        }
    }
    arguments
}

fn carrier(chance: &mut Chance, book: &[u8], side: Side) -> Vec<u8> {
    let records = words(book.get(BOOK_HEADER..).unwrap_or(&[]));
    let of_side = |event: &Event| event.kind.side() == side && event.number_in_range();
    let events: Vec<Event> = records.into_iter().map(Event::from_word).filter(of_side).collect();
    let number = match events.is_empty() || chance.percent(20) {
        true => chance.one_of(&[0, 1, 9, 10, 63, side.carriers() - 1]),
        false => chance.one_of(&events).number,
    };
    let digits = chance.one_of(&[1, 1, 1, 2, 3, ARGUMENT_DIGITS]);
    format!("{number:0digits$}").into_bytes()
}

/// Out of range, too many digits, or no number at all.
fn not_taken(chance: &mut Chance, side: Side) -> Vec<u8> {
    let carriers = u128::from(side.carriers());
    match chance.within(0..=4) {
        0 => {
            let number = chance.one_of(&[carriers, carriers + 1, 1_000, u128::MAX]);
            number.to_string().into_bytes()
        }
        1 => {
            let past = chance.one_of(&[PAST_32_BITS, PAST_64_BITS, PAST_64_BITS / 2]);
            (past + u128::from(chance.within(0..=63))).to_string().into_bytes()
        }
        2 => {
            let digits = ARGUMENT_DIGITS + chance.one_of(&[1, 2, 300, 5_000]);
            format!("{:0digits$}", chance.within(0..=63)).into_bytes()
        }
        3 => chance
            .one_of(&[&b""[..], b"-1", b"+1", b" 1", b"1 ", b"1\n", b"--help", b"0x1"])
            .to_vec(),
        _ => {
            let mut bytes = b"12".to_vec();
            let place = chance.place(3);
            // No argument has a zero byte within.
            let byte = chance.one_of(&[1, b'/', b':', b'a', b'.', b' ', 0xb2, 0xff]);
            bytes.insert(place, byte);
            bytes
        }
    }
}
