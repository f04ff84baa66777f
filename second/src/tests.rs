//! The rules' examples, and each refusal at its edge.

use crate::book;
use crate::event::{Event, Kind, Side, KINDS};
use crate::files::Memory;
use crate::formula::History;
use crate::group::{mask, Group};
use crate::judge::{self, bytes, evidence, judge, judge_bytes, Cause, Moment, Verdict};
use crate::keeper::{run, Keeper, HELP};
use crate::listing::listing;
use crate::record::GroupRecord;
use crate::refusal::Refusal;
use crate::spans::{listed, spans, spans_of_history, spans_tick_by_tick};
use crate::spans_of_book::{spans_of_book, Asked};
use crate::store::deliver;
use crate::wrong::{spans_by, verdict_by, Reading, READINGS};
use std::collections::BTreeMap;
use std::mem::size_of;

mod cause;
mod page;

const FIRST_BOOK: [u32; 8] = [4610, 6144, 9730, 14849, 16386, 16901, 24065, 27648];

/// `SJ1 LL2` as a strip of carrier 0.
fn strip(text: &str) -> Vec<u32> {
    text.split_whitespace()
        .map(|event| {
            let kind = KINDS.into_iter().find(|kind| format!("{kind:?}") == event[..2]).unwrap();
            Event { tick: event[2..].parse().unwrap(), kind, number: 0 }.word()
        })
        .collect()
}

const ADD: fn(u32) -> Verdict = |tick| Verdict::Granted(Moment::Add(tick));
const JOIN: fn(u32) -> Verdict = |tick| Verdict::Granted(Moment::Join(tick));
const NONE: Verdict = Verdict::Denied(Cause::None);

fn thirteen_histories() -> [(&'static str, &'static str, u32, Verdict); 13] {
    [
        ("", "", 0, NONE),
        ("SJ1", "SA1", 1, ADD(1)),
        ("LJ1", "LA1", 1, ADD(1)),
        ("SJ2", "LA1", 2, NONE),
        ("LJ2", "LA1", 2, JOIN(2)),
        ("LJ2", "SA1", 2, NONE),
        ("LJ1 LL2", "SA2", 2, NONE),
        ("LJ2", "LA1 LR2", 2, NONE),
        ("SJ1 LL3", "SA2 LR4", 5, ADD(2)),
        ("SJ1 SL3", "SA2 SR3", 3, Verdict::Denied(Cause::StrictLeave(3))),
        ("SJ1 LL2 SJ4", "LA3", 4, NONE),
        ("SJ1 SL2 LJ3", "LA1", 3, JOIN(3)),
        ("SJ1", "SA2 SR3 LA4", 4, ADD(4)),
    ]
}

#[test]
fn the_thirteen_histories() {
    for (model, sheet, now, verdict) in thirteen_histories() {
        let (m, s) = (strip(model), strip(sheet));
        assert_eq!(judge(&m, &s, now), Ok(verdict), "{model} | {sheet} | {now}");
        let every = History::of_every_tick(&judge::events(&m), &judge::events(&s), now);
        assert_eq!(judge::verdict(&every), verdict, "{model} | {sheet} | {now}, every tick");
    }
}

#[test]
fn the_thirteen_histories_by_the_group() {
    for (model, sheet, now, verdict) in thirteen_histories() {
        let mut group = Group::default();
        let events = judge::events(&[strip(model), strip(sheet)].concat());
        for tick in 1..=now {
            for event in events.iter().filter(|event| event.tick == tick) {
                assert_eq!(group.request(event.kind.number(), 0), Ok(()));
            }
            assert_eq!(group.close(), Ok(tick));
        }
        assert_eq!(group.read(0, 0), Ok(verdict.is_granted()), "{model} | {sheet} | {now}");
    }
}

#[test]
fn the_codes_for_c() {
    let ask = |model: &str, sheet: &str, now| {
        let packed = judge_bytes(&bytes(&strip(model)), &bytes(&strip(sheet)), now);
        (packed >> 32, packed as u32)
    };
    assert_eq!(ask("SJ1", "SA1", 1), (101, 1));
    assert_eq!(ask("LJ2", "LA1", 2), (102, 2));
    assert_eq!(ask("", "", 0), (103, 0));
    assert_eq!(ask("SJ1 SL3", "SA2 SR3", 3), (104, 3));
    assert_eq!(ask("SJ1", "SA2 SR3", 3), (105, 3));
    assert_eq!(ask("SJ1 SL1000000", "SA2", 1_000_000), (104, 1_000_000));
    assert_eq!(ask("SJ1", "SA2 SR1000000", 1_000_000), (105, 1_000_000));
    assert_eq!(ask("SJ1", "", 0), (13, 0));
    assert_eq!(ask("SJ1 SL1", "", 1), (13, 1));
    assert_eq!(ask("", "SA1 LJ2", 2), (14, 1));
    assert_eq!(judge_bytes(&[0; 5], &[0; 3], 1_000_001) >> 32, 10);
    assert_eq!(judge_bytes(&[0; 5], &[0; 3], 1_000_000) >> 32, 11);
    assert_eq!(judge_bytes(&[0; 16_388], &[0; 3], 0) >> 32, 11);
    assert_eq!(judge_bytes(&[0; 16_384], &[0; 3], 0) >> 32, 12);
    assert_eq!(judge_bytes(&[0; 16_384], &[0; 4], 0) >> 32, 13);
}

#[test]
fn strips_that_are_not_good() {
    let word = |tick, kind, number| Event { tick, kind, number }.word();
    let bad = |words: &[u32], side| judge::first_bad_place(words, side, 10);
    assert_eq!(bad(&[word(1, Kind::SJ, 63), word(10, Kind::SL, 63)], Side::Model), None);
    assert_eq!(bad(&[word(1, Kind::SJ, 64)], Side::Model), Some(0));
    assert_eq!(bad(&[word(1, Kind::LA, 255)], Side::Sheet), None);
    assert_eq!(bad(&[word(1, Kind::LA, 256)], Side::Sheet), Some(0));
    assert_eq!(bad(&[word(1, Kind::SJ, 1), word(2, Kind::SL, 2)], Side::Model), Some(1));
    assert_eq!(bad(&[word(1, Kind::SJ, 1), word(2, Kind::LJ, 1)], Side::Model), Some(1));
    assert_eq!(bad(&[word(2, Kind::SJ, 1), word(2, Kind::LL, 1)], Side::Model), Some(1));
    assert_eq!(bad(&[word(11, Kind::SJ, 1)], Side::Model), Some(0));
    assert_eq!(bad(&[word(0, Kind::SJ, 1)], Side::Model), Some(0));
    assert_eq!(bad(&[word(1, Kind::SL, 1)], Side::Model), Some(0));
    assert_eq!(bad(&[word(1, Kind::SA, 1)], Side::Model), Some(0));
}

#[test]
fn the_evidence() {
    let (model, sheet) = (strip("LJ1 LL2 LJ5"), strip("SA1 LR3 LA4"));
    assert_eq!(evidence(&model, &sheet, 5), &model[2..]);
    assert_eq!(evidence(&model[..1], &sheet, 5), &sheet[2..]);
    assert_eq!(evidence(&model[..1], &sheet[..2], 5), &sheet[..2]);
    assert_eq!(evidence(&model, &sheet, 4), &model[..0]);
}

/// The numbers of the spans, and they are the same tick by tick where now is near.
fn spans_of(model: &str, sheet: &str, now: u32) -> Vec<u32> {
    let (model, sheet) = (strip(model), strip(sheet));
    let found = spans(&model, &sheet, now).unwrap();
    let numbers = listed(&found, model.len() + sheet.len()).unwrap();
    if now <= 100 {
        let (model, sheet) = (judge::events(&model), judge::events(&sheet));
        assert_eq!(spans_tick_by_tick(&model, &sheet, now), found, "{model:?} | {sheet:?} | {now}");
    }
    numbers
}

#[test]
fn the_spans_of_the_thirteen_histories() {
    for (model, sheet, now, verdict) in thirteen_histories() {
        let ends_now = spans_of(model, sheet, now).last() == Some(&now);
        assert_eq!(ends_now, verdict.is_granted(), "{model} | {sheet} | {now}");
    }
}

#[test]
fn spans_at_their_edges() {
    const NONE: [u32; 0] = [];
    assert_eq!(spans_of("", "", 0), NONE);
    assert_eq!(spans_of("", "", 1_000_000), NONE);
    assert_eq!(spans_of("SJ1", "SA1", 1), [1, 1]);
    assert_eq!(spans_of("SJ1 SL2", "SA1", 9), [1, 1], "in tick 1 only");
    assert_eq!(spans_of("SJ1", "SA1 SR3 SA4", 4), [1, 2, 4, 4], "one tick between");
    assert_eq!(spans_of("SJ1 SL2 SJ3", "SA1 LR2 SA3", 3), [1, 1, 3, 3], "both in and out again");
    assert_eq!(spans_of("LJ1 SL2 LJ3 SL4", "LA1", 5), [1, 1, 3, 3], "a rejoin in the next tick");
    assert_eq!(spans_of("SJ1 SL2 SJ3", "LA1", 5), [1, 1], "a strict rejoin");
    assert_eq!(spans_of("SJ1", "SA2 LR3 SA4 LR5 LA6", 7), [2, 7], "a moment within a span");
    assert_eq!(spans_of("SJ1 LL3 LJ5 SL7", "SA2 LR4", 9), [2, 6], "leaves that end nothing");
    assert_eq!(spans_of("SJ1", "LA5", 9), [5, 9], "from the add, not the join");
    assert_eq!(spans_of("LJ5", "LA1", 9), [5, 9], "from the join, not the add");
    assert_eq!(spans_of("SJ2", "SA3", 1_000_000), [3, 1_000_000]);
    assert_eq!(spans_of("SJ1000000", "SA999999 SR1000000", 1_000_000), NONE);
    assert_eq!(spans_of("SJ999999 SL1000000", "SA999999", 1_000_000), [999_999, 999_999]);
}

#[test]
fn spans_refused() {
    let (model, sheet) = (strip("SJ1"), strip("SA1 SR3 SA4"));
    let ask = |model: &[u32], sheet: &[u32], now, list| {
        spans(model, sheet, now).and_then(|spans| listed(&spans, list))
    };
    let refused = |number| Err(Refusal::plain(number));
    assert_eq!(ask(&model, &sheet, 4, 4), Ok(vec![1, 2, 4, 4]));
    assert_eq!(ask(&model, &sheet, 4, 3), refused(40));
    assert_eq!(ask(&model, &sheet, 4, 0), refused(40));
    assert_eq!(ask(&model, &[], 4, 0), Ok(vec![]));
    assert_eq!(ask(&sheet, &model, 1_000_001, 0), refused(10));
    assert_eq!(ask(&[0; 4_097], &[0; 4_097], 4, 0), refused(11));
    assert_eq!(ask(&[0; 4_096], &[0; 4_097], 4, 0), refused(12));
    assert_eq!(ask(&sheet, &model, 4, 0), Err(Refusal::at(13, 0)));
    assert_eq!(ask(&model, &sheet, 3, 0), Err(Refusal::at(14, 2)));
}

/// A full strip of spans of one tick each, far apart and close.
#[test]
fn spans_of_a_full_strip() {
    for step in [1, 244] {
        let event = |place: u32| {
            let kind = if place.is_multiple_of(2) { Kind::LA } else { Kind::SR };
            Event { tick: 1 + step * place, kind, number: 9 }
        };
        let sheet: Vec<u32> = (0..4_096).map(|place| event(place).word()).collect();
        let found = spans(&strip("SJ1"), &sheet, 1_000_000).unwrap();
        let expected = (0..2_048).flat_map(|span| [1 + 2 * step * span, step * (2 * span + 1)]);
        assert_eq!(listed(&found, 4_096), Ok(expected.collect()));
        assert_eq!(listed(&found, 4_095), Err(Refusal::plain(40)));
    }
}

#[test]
fn the_largest_word() {
    let largest = Event { tick: 1_000_000, kind: Kind::LR, number: 255 };
    assert_eq!(largest.word(), 4_096_003_839);
    assert_eq!(Event::from_word(4_096_003_839), largest);
}

#[test]
fn the_two_books() {
    let book = |words: &[u32], ticks: u32| {
        let header = [20 + 4 * words.len() as u32, ticks, words.len() as u32, 20, 3];
        bytes(&[&header, words].concat())
    };
    let print = |book: &[u8]| listing(book, Reading::Right);
    let first = book(&FIRST_BOOK, 6);
    assert_eq!(print(&first), "group 3 ticks 6 records 8\n5 1 join 4\ngranted 1\n");
    let second = book(&FIRST_BOOK[..7], 5);
    assert_eq!(print(&second), "group 3 ticks 5 records 7\n2 0 add 1\n5 1 join 4\ngranted 2\n");
    assert_eq!(book::write(6, 3, &FIRST_BOOK, 52), Ok(first.clone()));
    assert_eq!(print(&first[..51]), "refused 21\n");
    assert_eq!(print(&first[..19]), "refused 20\n");
    assert_eq!(print(&[0; 16_405]), "refused 20\n");
    assert_eq!(print(&book(&[4610, 4610], 5)), "refused 25 at 1\n");
    assert_eq!(print(&book(&FIRST_BOOK, 5)), "refused 24 at 7\n");
    assert_eq!(print(&book(&[4610, 8706], 5)), "refused 26 at 1\n");
    assert_eq!(print(&book(&FIRST_BOOK, 1_000_001)), "refused 22\n");
}

/// What `spans` prints, or None for its usage.
fn print_spans(arguments: &[&str], book: &[u8]) -> Option<String> {
    Asked::by(arguments).map(|asked| spans_of_book(book, &asked, Reading::Right))
}

#[test]
fn the_spans_of_the_two_books() {
    let first = book::write(6, 3, &FIRST_BOOK, 52).unwrap();
    let print = |arguments: &[&str]| print_spans(arguments, &first).unwrap();
    let head = "group 3 ticks 6 records 8\n";
    assert_eq!(print(&[]), format!("{head}2 0 1 5\n5 1 4 6\nspans 2\n"));
    assert_eq!(print(&["2"]), format!("{head}2 0 1 5\nspans 1\n"));
    assert_eq!(print(&["00000000000000000005", "001"]), format!("{head}5 1 4 6\nspans 1\n"));
    assert_eq!(print(&["5", "0"]), format!("{head}spans 0\n"));
    let second = book::write(5, 3, &FIRST_BOOK[..7], 48).unwrap();
    let head = "group 3 ticks 5 records 7\n";
    let expected = format!("{head}2 0 1 5\n5 1 4 5\nspans 2\n");
    assert_eq!(print_spans(&[], &second).unwrap(), expected);
    assert_eq!(print_spans(&["63", "255"], &second[..47]).unwrap(), "refused 21\n");
    let twice = bytes(&[28, 5, 2, 20, 3, 4610, 4610]);
    assert_eq!(print_spans(&["0"], &twice).unwrap(), "refused 25 at 1\n");
}

#[test]
fn arguments_that_spans_does_not_take() {
    for model in ["", "64", "-1", "+1", " 1", "1 ", "x", "1x", "0x1", "--help", "4294967296"] {
        assert_eq!(print_spans(&[model], &[]), None, "{model}");
        assert_eq!(print_spans(&[model, "0"], &[]), None, "{model}");
    }
    for sheet in
        ["", "256", "18446744073709551616", "99999999999999999999", "000000000000000000001"]
    {
        assert_eq!(print_spans(&["0", sheet], &[]), None, "{sheet}");
    }
    assert_eq!(print_spans(&["0", "0", "0"], &[]), None);
    assert!(print_spans(&["63", "255"], &[]).is_some());
}

#[test]
fn book_refusals_in_order() {
    let header = |fields: [u32; 5]| book::read(&bytes(&fields), 4_096).map(|_| ());
    let refused = |number| Err(Refusal::plain(number));
    assert_eq!(header([20, 0, 0, 20, 0]), Ok(()));
    assert_eq!(header([21, 1_000_001, 1, 21, 16]), refused(21));
    assert_eq!(header([20, 1_000_001, 0, 20, 0]), refused(22));
    assert_eq!(header([20, 0, 4_097, 20, 0]), refused(22));
    assert_eq!(header([20, 0, 0, 24, 0]), refused(22));
    assert_eq!(header([20, 0, 0, 20, 16]), refused(22));
    assert_eq!(header([20, 0, 1, 20, 0]), refused(23));
    let one = bytes(&[24, 0, 1, 20, 0, 0]);
    assert_eq!(book::read(&one, 0).map(|_| ()), refused(28));
    assert_eq!(book::read(&one, 1).map(|_| ()), Err(Refusal::at(24, 0)));
    assert_eq!(book::write(0, 16, &[0; 4_097], 0), Err(Refusal::plain(22)));
    assert_eq!(book::write(0, 15, &[0], 23), Err(Refusal::plain(27)));
    assert_eq!(book::write(0, 15, &[0], 24), Err(Refusal::at(24, 0)));
}

#[test]
fn the_records_of_one_tick() {
    let part = |tick| book::records_of_tick(&FIRST_BOOK, tick);
    assert_eq!(part(1), &[4610, 6144]);
    assert_eq!(part(4), &[16386, 16901]);
    assert!(part(7).is_empty() && part(0).is_empty());
    assert_eq!(part(0).as_ptr(), FIRST_BOOK.as_ptr());
    assert_eq!(part(7).as_ptr(), FIRST_BOOK[8..].as_ptr());
    assert!(book::records_of_tick(&[4610, 4610], 1).is_empty());
}

#[test]
fn requests_and_closes() {
    let refused = |number| Err(Refusal::plain(number));
    let mut group = Group::default();
    assert_eq!(group.request(8, 999), refused(1));
    assert_eq!(group.request(0, 64), refused(2));
    assert_eq!(group.request(4, 256), refused(2));
    assert_eq!(group.request(2, 1), refused(6));
    assert_eq!(group.request(0, 1), Ok(()));
    assert_eq!(group.request(2, 1), refused(4));
    assert_eq!(group.close(), Ok(1));
    assert_eq!(group.request(1, 1), refused(5));
    group.closed = 999_999;
    assert_eq!(group.close(), Ok(1_000_000));
    assert_eq!(group.close(), Err(Refusal::plain(3)));
    assert_eq!(group.request(2, 1), refused(3));
    assert_eq!(group.request(2, 64), refused(2));
}

#[test]
fn an_add_then_a_liberal_leave_in_one_tick_is_no_moment() {
    let mut group = Group::default();
    group.request(Kind::SJ.number(), 1).unwrap();
    group.close().unwrap();
    group.request(Kind::LA.number(), 2).unwrap();
    group.request(Kind::LL.number(), 1).unwrap();
    group.close().unwrap();
    assert_eq!(group.read(1, 2), Ok(false));
}

/// A group in which model 1 may read sheet 0, at two closed ticks.
fn granting_group() -> Group {
    let mut group = Group::default();
    group.request(Kind::SJ.number(), 1).unwrap();
    group.close().unwrap();
    group.request(Kind::SA.number(), 0).unwrap();
    assert_eq!(group.read(1, 0), Ok(false));
    group.close().unwrap();
    group
}

#[test]
fn reads_counts_and_masks() {
    let group = granting_group();
    assert_eq!(group.read(1, 0), Ok(true));
    assert_eq!(group.read(64, 0), Err(Refusal::plain(2)));
    assert_eq!(group.read(0, 256), Err(Refusal::plain(2)));
    assert_eq!(group.models(0), Ok(1));
    assert_eq!(group.models(256), Err(Refusal::plain(2)));
    let station = [Group::default(), group.clone(), Group::default(), group.clone()];
    let granting = |station: &[Group], model| mask(station, |group| group.read(model, 0));
    assert_eq!(granting(&station, 1), Ok(0b1010));
    assert_eq!(granting(&station, 64), Err(Refusal::plain(2)));
    assert_eq!(granting(&[], 64), Err(Refusal::plain(7)));
    assert_eq!(granting(&vec![group; 17], 1), Err(Refusal::plain(7)));
    assert_eq!(Group::fresh(15).0.number, 15);
    let (zero, answer) = Group::fresh(16);
    assert_eq!((zero.number, answer), (0, Err(Refusal::plain(9))));
}

#[test]
fn deliveries() {
    let group = granting_group();
    let empty = bytes(&[8, 0]);
    assert_eq!(deliver(&group, 1, &empty, 100), Err(Refusal::at(32, 0)));
    assert_eq!(deliver(&group, 0, &empty, 8), Ok(bytes(&[0, 8])));
    assert_eq!(deliver(&group, 0, &empty, 7), Err(Refusal::plain(34)));
    assert_eq!(deliver(&group, 64, &[], 8), Err(Refusal::plain(2)));
    assert_eq!(deliver(&group, 0, &empty[..7], 8), Err(Refusal::plain(31)));

    let store = [bytes(&[21, 1, 16, 5]), b"hello".to_vec()].concat();
    let delivery = [bytes(&[1, 21, 0, 5]), b"hello".to_vec()].concat();
    assert_eq!(deliver(&group, 1, &store, 21), Ok(delivery));
    assert_eq!(deliver(&group, 1, &store, 20), Err(Refusal::plain(34)));
    for (offset, length) in [(15, 0), (16, 6), (22, 0), (u32::MAX, 2), (20, u32::MAX)] {
        let store = [bytes(&[21, 1, offset, length]), b"hello".to_vec()].concat();
        assert_eq!(deliver(&group, 1, &store, 21), Err(Refusal::at(33, 0)), "{offset} {length}");
        assert_eq!(deliver(&group, 0, &store, 21), Ok(bytes(&[0, 8])));
    }
    let at_end = [bytes(&[21, 1, 21, 0]), b"hello".to_vec()].concat();
    assert_eq!(deliver(&group, 1, &at_end, 21), Ok(bytes(&[1, 16, 0, 0])));
    for (total, count) in [(22, 1), (20, 1), (21, 257), (21, 2)] {
        let store = [bytes(&[total, count, 16, 5]), b"hello".to_vec()].concat();
        assert_eq!(deliver(&group, 1, &store, 21), Err(Refusal::plain(31)), "{total} {count}");
    }
}

/// The answers to a script, and the files it leaves.
fn keep(files: &[(&str, Vec<u8>)], script: &[u8]) -> (String, Memory) {
    let files = files.iter().map(|(name, bytes)| (name.as_bytes().to_vec(), bytes.clone()));
    let mut keeper = Keeper::new(Memory { files: files.collect() }, Reading::Right);
    let mut output = Vec::new();
    run(&mut keeper, script, &mut output).unwrap();
    (String::from_utf8(output).unwrap(), keeper.files)
}

#[test]
fn a_session_with_the_keeper() {
    let store = [bytes(&[21, 1, 16, 5]), b"hello".to_vec()].concat();
    let script = b"fresh 3\nSJ 1\nclose\n\n  SA   0 \nread 1 0\nclose\nread 1 0\nmodels 0\n\
        deliver 1 21 out\nstore sheets\ndeliver 1 20 out\ndeliver 1 21 out\nsave book\n\
        fresh 16\nload book\nrequest 7 0\nrequest 8 0\nload out\nload none\nsave a/b\nread 1 0";
    let (output, memory) = keep(&[("sheets", store)], script);
    assert_eq!(
        output,
        "fresh 3\nok\nclosed 1\nok\ndenied\nclosed 2\ngranted\nmodels 1\n\
         refused 31\nstore 21\nrefused 34\ndelivered 21\nsaved 28\n\
         refused 9\ngroup 3 ticks 2 records 2\nok\nrefused 1\nrefused 21\n\
         can't open none\ncan't open a/b\ndenied\n"
    );
    let delivery = [bytes(&[1, 21, 0, 5]), b"hello".to_vec()].concat();
    assert_eq!(memory.files[&b"out"[..]], delivery);
}

#[test]
fn lines_the_keeper_does_not_take() {
    let answer = |line: &[u8]| keep(&[], line).0;
    let long = |length| vec![b'x'; length];
    assert_eq!(answer(&long(255)), "what? unknown command\n");
    assert_eq!(answer(&long(256)), "what? line too long\n");
    assert_eq!(
        answer(&[long(5_000), b"\nclose\n".to_vec()].concat()),
        "what? line too long\nclosed 1\n"
    );
    assert_eq!(answer(&[b' '; 256]), "what? line too long\n");
    assert_eq!(answer(&[b' '; 255]), "");
    assert_eq!(answer(b"sj 1\n"), "what? unknown command\n");
    assert_eq!(answer(b"close\r\n"), "what? unknown command\n");
    assert_eq!(answer(b"\tclose\n"), "what? unknown command\n");
    assert_eq!(answer(b"read 1\n"), "what? missing word\n");
    assert_eq!(answer(b"close now\n"), "what? extra word\n");
    assert_eq!(answer(b"read 1 x y\n"), "what? extra word\n");
    assert_eq!(answer(b"SJ -1\n"), "what? not a number\n");
    assert_eq!(answer(b"SJ +1\n"), "what? not a number\n");
    assert_eq!(answer(b"SJ 4294967296\n"), "what? number too large\n");
    assert_eq!(answer(b"SJ 99999999999999999999999999x\n"), "what? not a number\n");
    assert_eq!(answer(b"SJ 4294967295\n"), "refused 2\n");
    assert_eq!(answer(b"SJ 0000000000000063\n"), "ok\n");
    assert_eq!(answer(b"deliver 64 1114113 x\n"), "what? buffer too large\n");
    assert_eq!(answer(b"deliver 64 1114112 x\n"), "refused 2\n");
    assert_eq!(answer(&[b"load ".to_vec(), long(201)].concat()), "what? file name too long\n");
    let name = "x".repeat(200);
    assert_eq!(answer(format!("load {name}").as_bytes()), format!("can't open {name}\n"));
    assert_eq!(answer(b"help"), HELP);
    assert!(HELP.lines().count() < 24 && HELP.lines().all(|line| line.len() < 80));
}

#[test]
fn files_over_their_limit() {
    let files = [("book", vec![0; 20_000]), ("sheets", vec![0; 2_000_000])];
    let (output, _) = keep(&files, b"load book\nstore sheets\ndeliver 0 8 out\n");
    assert_eq!(output, "refused 20\nstore 1048577\nrefused 31\n");
}

#[test]
fn file_names_that_are_not_utf_8() {
    let store = [bytes(&[21, 1, 16, 5]), b"hello".to_vec()].concat();
    let names: [&[u8]; 10] = [
        b"\xff",
        b"a\x80",
        b"\xc3a",
        b"a\xe2\x82",
        b"\xc1\xbf",
        b"\xe0\x9f\xbf",
        b"\xed\xa0\x80",
        b"\xf0\x8f\xbf\xbf",
        b"\xf4\x90\x80\x80",
        b"\xf8\x88\x80\x80\x80",
    ];
    for name in names {
        let files = BTreeMap::from([b"sheets", name].map(|name| (name.to_vec(), store.clone())));
        let mut keeper = Keeper::new(Memory { files: files.clone() }, Reading::Right);
        let line = |command: &str| [command.as_bytes(), b" ", name].concat();
        let cant_open = [b"can't open ", name, b"\n"].concat();
        assert_eq!(keeper.answer(&line("store")), cant_open);
        assert_eq!(keeper.answer(&line("deliver 0 8")), b"refused 31\n");
        assert_eq!(keeper.answer(b"store sheets"), b"store 21\n");
        for command in ["load", "store", "save", "deliver 0 8"] {
            assert_eq!(keeper.answer(&line(command)), cant_open);
        }
        assert_eq!(keeper.answer(&line("deliver 64 8")), b"refused 2\n");
        assert_eq!((&keeper.store, &keeper.files.files), (&store, &files));
    }
    for name in ["\u{80}", "\u{7ff}", "\u{800}", "\u{d7ff}", "\u{e000}", "\u{ffff}", "\u{10ffff}"] {
        let script = format!("save {name}\nload {name}\nstore {name}\n");
        let (output, _) = keep(&[], script.as_bytes());
        assert_eq!(output, "saved 20\ngroup 0 ticks 0 records 0\nstore 20\n");
    }
}

#[test]
fn a_save_of_too_many_records() {
    let mut script = String::new();
    for tick in 0..65 {
        let kind = if tick % 2 == 0 { "SJ" } else { "LL" };
        (0..64).for_each(|model| script += &format!("{kind} {model}\n"));
        script += "close\n";
    }
    let script = [script.as_bytes(), b"save book\nsave book\xff\n"].concat();
    let (output, memory) = keep(&[], &script);
    assert!(output.ends_with("closed 65\nrefused 22\nrefused 22\n"));
    assert!(memory.files.is_empty());
}

/// The next request of carrier 0 by a choice: nothing, strict or liberal.
fn choose(group: &Group, side: Side, choice: u32) -> Option<u32> {
    let is_in = group.strip(side, 0).last().is_some_and(|event| event.kind.enters());
    let first = if side == Side::Model { 0 } else { 4 };
    (choice > 0).then(|| first + 2 * u32::from(is_in) + choice - 1)
}

#[test]
fn the_law_of_one_tick_agrees_with_the_formula() {
    const TICKS: u32 = 4;
    for code in 0..9_u32.pow(TICKS) {
        let (mut group, mut lent, mut closed) =
            (Group::default(), GroupRecord::fresh(0), GroupRecord::fresh(0));
        for tick in 0..TICKS {
            let choices = code / 9_u32.pow(tick) % 9;
            for (side, choice) in [(Side::Model, choices % 3), (Side::Sheet, choices / 3)] {
                if let Some(kind) = choose(&group, side, choice) {
                    assert_eq!(group.request(kind, 0), lent.request(kind, 0));
                }
            }
            assert_eq!(lent, GroupRecord::with_grants(&group, closed.grants));
            assert_eq!(group.close().map(|_| ()), lent.close());
            closed = GroupRecord::of_close(&group, &closed);
            assert_eq!((lent, closed), (closed, GroupRecord::of_history(&group)), "{group:?}");
        }
    }
}

/// Every history of so many ticks: the events of carrier 0 on both sides.
fn every_history(ticks: u32) -> impl Iterator<Item = (Vec<Event>, Vec<Event>)> {
    (0..9_u32.pow(ticks)).map(move |code| {
        let mut group = Group::default();
        for tick in 0..ticks {
            let choices = code / 9_u32.pow(tick) % 9;
            for (side, choice) in [(Side::Model, choices % 3), (Side::Sheet, choices / 3)] {
                choose(&group, side, choice).map(|kind| group.request(kind, 0));
            }
            group.close().unwrap();
        }
        (group.strip(Side::Model, 0), group.strip(Side::Sheet, 0))
    })
}

/// Both ways to the spans agree on every history of four ticks and one more; and a wrong
/// reading's spans, too, end at now where its verdict there is a grant.
#[test]
fn the_spans_tick_by_tick() {
    const TICKS: u32 = 4;
    for (model, sheet) in every_history(TICKS) {
        let now = TICKS + 1;
        let found = spans_of_history(&History::of_event_ticks(&model, &sheet), now);
        assert_eq!(found, spans_tick_by_tick(&model, &sheet, now), "{model:?} {sheet:?}");
        for (_, reading) in READINGS {
            let last = spans_by(reading, &model, &sheet, now).last().map(|span| span.last);
            let granted = verdict_by(reading, &model, &sheet).is_granted();
            assert_eq!(last == Some(now), granted, "{reading:?} {model:?} {sheet:?}");
        }
    }
}

#[test]
fn records_come_back_from_their_words() {
    let record = GroupRecord::from_words((1..).map(|word: u64| word.wrapping_mul(0x9e37_79b9)));
    assert_eq!(GroupRecord::from_words(record.words().into_iter()), record);
    assert_eq!(8 * record.words().len(), size_of::<GroupRecord>());
    assert_eq!((record.members, record.grants[255]), (2 * 0x9e37_79b9, 286 * 0x9e37_79b9));
}
