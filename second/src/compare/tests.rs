//! The makers of cases keep their word, and cases come back from their text as they were.

use crate::agreement::disagreement;
use crate::arguments::arguments;
use crate::books::{book_near_the_last_tick, good_book};
use crate::case::{Case, Run};
use crate::chance::Chance;
use crate::demand3::pair;
use crate::differ::{expected_of_spans, pair_is_sound};
use crate::library::author::calls;
use crate::random_case;
use crate::scripts::script;
use crate::shrink::shrink;
use crate::spanning::spanned;
use crate::stores::store_with_entries;
use second::book;
use second::group::Group;
use second::judge::{bytes, events, judge_bytes, words};
use second::listing::listing;
use second::spans::{listed, spans, spans_tick_by_tick, tied};
use second::spans_of_book::USAGE;
use second::store::deliver;
use second::wrong::Reading;
use std::collections::BTreeSet;

fn chances(count: u64) -> impl Iterator<Item = Chance> {
    (0..count).map(|number| Chance::of_case(1, number))
}

#[test]
fn good_books_are_accepted() {
    for mut chance in chances(300) {
        assert!(book::read(&good_book(&mut chance), 4_096).is_ok());
        assert!(book::read(&book_near_the_last_tick(&mut chance), 4_096).is_ok());
    }
}

#[test]
fn stores_with_entries_have_a_good_header() {
    for mut chance in chances(300) {
        let store = store_with_entries(&mut chance, 50);
        assert!(deliver(&Group::default(), 0, &store, 8).is_ok());
    }
}

/// The second program's own spans, on random strips, against its judge, and against the formula at
/// every tick; with every number of them up to a few, and many.
#[test]
fn spans_of_random_strips_tick_by_tick() {
    const NEAR: u32 = 60;
    let mut counts = BTreeSet::new();
    for mut chance in chances(4_000) {
        let case = spanned(&mut chance);
        let (model, sheet) = (words(case.file(b"model0")), words(case.file(b"sheet0")));
        let line = String::from_utf8_lossy(&case.lines[0].text);
        let now = line.split(' ').nth(2).and_then(|now| now.parse().ok()).unwrap();
        let found = spans(&model, &sheet, now);
        let judged = judge_bytes(&bytes(&model), &bytes(&sheet), now);
        assert!(tied(judged, &found, now), "{}", case.to_text());
        let Ok(found) = found else { continue };
        // As the header says.
        assert!(listed(&found, model.len() + sheet.len()).is_ok());
        if now <= NEAR {
            assert_eq!(found, spans_tick_by_tick(&events(&model), &events(&sheet), now));
            counts.insert(found.len());
        }
    }
    assert!((0..=12).all(|count| counts.contains(&count)), "{counts:?}");
}

#[test]
fn arguments_are_taken_and_not() {
    let printed: Vec<(usize, bool)> = chances(500)
        .map(|mut chance| {
            let book = good_book(&mut chance);
            let arguments = arguments(&mut chance, &book);
            let arguments: Vec<&[u8]> = arguments.iter().map(Vec::as_slice).collect();
            (arguments.len(), expected_of_spans(&arguments, &book) == USAGE)
        })
        .collect();
    for sort in [(1, false), (2, false), (1, true), (2, true), (3, true)] {
        assert!(printed.contains(&sort), "{sort:?}");
    }
    assert!(!printed.contains(&(3, false)));
}

#[test]
fn listing_and_spans_that_do_not_agree() {
    let head = "group 3 ticks 6 records 8\n";
    let agree = |listing: &str, spans: &str| {
        let (listing, spans) = (format!("{head}{listing}"), format!("{head}{spans}"));
        disagreement(listing.as_bytes(), spans.as_bytes()).is_none()
    };
    assert!(agree("5 1 join 4\ngranted 1\n", "2 0 1 5\n5 1 4 6\nspans 2\n"));
    assert!(agree("granted 0\n", "spans 0\n"));
    assert!(!agree("5 1 join 4\ngranted 1\n", "5 1 4 5\nspans 1\n"), "ended and listed");
    assert!(!agree("5 1 join 4\ngranted 1\n", "5 1 5 6\nspans 1\n"), "the moment before it");
    assert!(!agree("5 1 join 4\ngranted 1\n", "spans 0\n"), "listed alone");
    assert!(!agree("granted 0\n", "5 1 1 2\n5 1 4 6\nspans 2\n"), "open and not listed");
    assert!(disagreement(b"refused 21\n", b"refused 21\n").is_none());
    assert!(disagreement(b"refused 21\n", b"refused 20\n").is_some());
    assert!(disagreement(b"refused 25 at 1\n", b"refused 25 at 1\nspans 0\n").is_some());
}

#[test]
fn the_second_programs_own_listing_and_spans_agree() {
    for mut chance in chances(100) {
        let book = good_book(&mut chance);
        let (listing, spans) = (listing(&book, Reading::Right), expected_of_spans(&[], &book));
        assert_eq!(disagreement(listing.as_bytes(), spans.as_bytes()), None);
    }
}

#[test]
fn pairs_are_sound_and_differ() {
    let pairs: Vec<Case> = chances(200).map(|mut chance| pair(&mut chance)).collect();
    assert!(pairs.iter().all(|case| pair_is_sound(case).is_ok()));
    let differ = pairs.iter().filter(|case| case.input(Run::Left) != case.input(Run::Right));
    assert!(differ.count() > 100);
}

#[test]
fn cases_come_back_from_their_text() {
    let made =
        |make: fn(&mut Chance) -> Case| chances(200).map(move |mut chance| make(&mut chance));
    for case in made(random_case).chain(made(calls)).chain(made(spanned)) {
        let again = Case::from_text(&case.to_text()).unwrap();
        assert_eq!(again.trial, case.trial);
        assert_eq!(again.input(Run::Left), case.input(Run::Left));
        assert_eq!(again.folder(Run::Left), case.folder(Run::Left));
    }
}

#[test]
fn the_same_seed_gives_the_same_case() {
    let text = || random_case(&mut Chance::of_case(5, 7)).to_text();
    assert_eq!(text(), text());
}

#[test]
fn shrinking_keeps_what_matters() {
    let case =
        chances(50).map(|mut chance| script(&mut chance)).find(|case| case.lines.len() > 150);
    let closes = |case: &Case| case.lines.iter().filter(|line| line.text == b"close").count();
    let case = case.unwrap();
    assert!(closes(&case) >= 2);
    let small = shrink(&case, &|case| closes(case) >= 2);
    assert_eq!((small.lines.len(), small.files.len()), (2, 0));
}
