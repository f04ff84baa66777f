//! The rows that are calls of the library, in this process. Before a row is timed, both sides are seen to
//! give the same answers and the same bytes on its work.

use crate::dice::Dice;
use crate::gate;
use crate::measure::{measure, Side, Timing};
use crate::work::{self, Strips};
use crate::Setting;
use plain::delivery::deliver;
use plain::event::{EVENTS, LL, SL};
use plain::group::Group;
use plain::judge::judge_bytes;
use plain::spans::spans;
use std::hint::black_box;

pub fn judge_4096(setting: &Setting) -> Vec<Timing> {
    judge(setting, 16, |dice| work::strips(dice, 4_096))
}

pub fn judge_even(setting: &Setting) -> Vec<Timing> {
    judge(setting, 16, |_| work::even_strips(4_096, LL))
}

pub fn judge_8(setting: &Setting) -> Vec<Timing> {
    judge(setting, 1_024, |dice| work::strips(dice, 8))
}

pub fn spans_4096(setting: &Setting) -> Vec<Timing> {
    spans_of(setting, 16, |dice| work::strips(dice, 4_096))
}

pub fn spans_even(setting: &Setting) -> Vec<Timing> {
    spans_of(setting, 16, |_| work::even_strips(4_096, SL))
}

pub fn spans_8(setting: &Setting) -> Vec<Timing> {
    spans_of(setting, 1_024, |dice| work::strips(dice, 8))
}

pub fn book_0(setting: &Setting) -> Vec<Timing> {
    book(setting, 0)
}

pub fn book_4096(setting: &Setting) -> Vec<Timing> {
    book(setting, EVENTS)
}

pub fn deliver_empty(setting: &Setting) -> Vec<Timing> {
    delivery(setting, &[])
}

pub fn deliver_small(setting: &Setting) -> Vec<Timing> {
    delivery(setting, &[100; 256])
}

pub fn deliver_large(setting: &Setting) -> Vec<Timing> {
    delivery(setting, &[52_400; 20])
}

const OUT_BYTES: usize = 1_114_112;
const FILLING: u8 = 0xa5;

fn pair<'a>(gate: impl FnMut() + 'a, plain: impl FnMut() + 'a) -> [Side<'a>; 2] {
    [
        Side { name: "gate", work: Box::new(gate) },
        Side { name: "plain Rust", work: Box::new(plain) },
    ]
}

/// One call judges the next of several pairs of strips, so that no call can be learnt by heart.
fn judge(setting: &Setting, pairs: u64, strips: fn(&mut Dice) -> Strips) -> Vec<Timing> {
    let mut dice = Dice(pairs);
    let pairs: Vec<_> = (0..pairs).map(|_| strips(&mut dice).bytes()).collect();
    for pair in &pairs {
        let gate = gate::judge(&pair.model, &pair.sheet, work::NOW);
        assert_eq!(gate, judge_bytes(&pair.model, &pair.sheet, work::NOW), "the judges differ");
    }
    let (mut one, mut other) = (pairs.iter().cycle(), pairs.iter().cycle());
    let mut sides = pair(
        || {
            let strips = black_box(one.next().expect("pairs"));
            black_box(gate::judge(&strips.model, &strips.sheet, work::NOW));
        },
        || {
            let strips = black_box(other.next().expect("pairs"));
            black_box(judge_bytes(&strips.model, &strips.sheet, work::NOW));
        },
    );
    measure(setting.call_rounds(), &mut sides)
}

/// Likewise for the spans, into a list that is always long enough.
fn spans_of(setting: &Setting, pairs: u64, strips: fn(&mut Dice) -> Strips) -> Vec<Timing> {
    let mut dice = Dice(pairs);
    let pairs: Vec<_> = (0..pairs).map(|_| strips(&mut dice)).collect();
    let mut gate_list = vec![7; 2 * EVENTS];
    let mut plain_list = vec![7; 2 * EVENTS];
    for pair in &pairs {
        let answer = gate::spans(&pair.model, &pair.sheet, work::NOW, &mut gate_list);
        let count =
            spans(&pair.model, &pair.sheet, work::NOW, &mut plain_list).expect("good strips");
        let got = (answer.code, answer.place, answer.count as usize);
        assert_eq!(got, (0, 0, count), "the counts of spans differ");
        assert_eq!(gate_list, plain_list, "the lists of spans differ");
    }
    let (mut one, mut other) = (pairs.iter().cycle(), pairs.iter().cycle());
    let mut sides = pair(
        || {
            let strips = black_box(one.next().expect("pairs"));
            black_box(gate::spans(&strips.model, &strips.sheet, work::NOW, &mut gate_list));
            black_box(&gate_list);
        },
        || {
            let strips = black_box(other.next().expect("pairs"));
            black_box(spans(&strips.model, &strips.sheet, work::NOW, &mut plain_list))
                .expect("good strips");
            black_box(&plain_list);
        },
    );
    measure(setting.call_rounds(), &mut sides)
}

fn book(setting: &Setting, records: usize) -> Vec<Timing> {
    let mut dice = Dice(records as u64);
    let books: Vec<_> = (0..8).map(|_| work::book(&mut dice, records)).collect();
    let mut gate_list = vec![7; EVENTS];
    let mut plain_list = vec![7; EVENTS];
    let mut group = Group::fresh(0);
    for book in &books {
        let answer = gate::book_read(book, &mut gate_list);
        let read = plain::book::read(book, &mut plain_list, &mut group);
        assert!(answer.code == 0 && read == Ok(records), "a book is refused");
        assert!(gate::same(&answer.group, &group), "the groups differ");
        assert_eq!(gate_list, plain_list, "the word lists differ");
    }
    let (mut one, mut other) = (books.iter().cycle(), books.iter().cycle());
    let mut sides = pair(
        || {
            let book = black_box(one.next().expect("books"));
            black_box(gate::book_read(book, &mut gate_list));
        },
        || {
            let book = black_box(other.next().expect("books"));
            black_box(plain::book::read(book, &mut plain_list, &mut group)).expect("a good book");
            black_box(&group);
        },
    );
    measure(setting.call_rounds(), &mut sides)
}

fn delivery(setting: &Setting, lengths: &[u32]) -> Vec<Timing> {
    let mut dice = Dice(lengths.len() as u64);
    let store = work::store(&mut dice, lengths);
    let group = work::group(&mut dice, lengths.len());
    let gate_group = gate::Group::from(&group);
    let mut gate_out = vec![FILLING; OUT_BYTES];
    let mut plain_out = vec![FILLING; OUT_BYTES];
    let answer = gate::deliver(&gate_group, 0, &store, &mut gate_out);
    let length = deliver(&group, 0, &store, &mut plain_out).expect("a good store");
    assert_eq!((answer.code, answer.length), (0, length), "the deliveries differ");
    assert!(gate_out == plain_out, "the delivered bytes differ");
    let (gate_group, group, store) = (&gate_group, &group, &store);
    let mut sides = pair(
        || {
            black_box(gate::deliver(black_box(gate_group), 0, black_box(store), &mut gate_out));
            black_box(&gate_out);
        },
        || {
            black_box(deliver(black_box(group), 0, black_box(store), &mut plain_out))
                .expect("a good store");
            black_box(&plain_out);
        },
    );
    measure(setting.call_rounds(), &mut sides)
}
