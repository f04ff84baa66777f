//! What a page for breeders must show: the bars, and the answers to "Had it seen them?".

use super::{bytes, every_history, strip, thirteen_histories, FIRST_BOOK};
use crate::bars::{bars, beginnings};
use crate::book;
use crate::event::Event;
use crate::formula::{since, since_at_each, History};
use crate::judge::{judge, Verdict};
use crate::seen::seen;
use crate::spans::spans_tick_by_tick;
use crate::wrong::{beginnings_by, earliest_by, spans_by, Reading, READINGS};

fn first_book() -> Vec<u8> {
    book::write(6, 3, &FIRST_BOOK, 52).unwrap()
}

fn book_of_words(mut words: Vec<u32>, ticks: u32) -> Vec<u8> {
    words.sort_unstable();
    book::write(ticks, 3, &words, 16_404).unwrap()
}

/// The book of model 0 and of sheets 0, 1 and so on, by their events.
fn book_of(model: &str, sheets: &[&str], ticks: u32) -> Vec<u8> {
    let numbered =
        |(number, sheet): (u32, &&str)| strip(sheet).into_iter().map(move |word| word + number);
    let words = (0..).zip(sheets).flat_map(numbered);
    book_of_words(strip(model).into_iter().chain(words).collect(), ticks)
}

fn book_of_events(model: &[Event], sheet: &[Event], ticks: u32) -> Vec<u8> {
    book_of_words(model.iter().chain(sheet).map(|event| event.word()).collect(), ticks)
}

/// The lines of a book's bars between the first and the last.
fn bars_of(model: &str, sheets: &[&str], ticks: u32) -> Vec<String> {
    let printed = bars(&book_of(model, sheets, ticks), Reading::Right);
    let lines: Vec<String> = printed.lines().map(str::to_string).collect();
    assert_eq!(lines[lines.len() - 1], format!("bars {}", lines.len() - 2));
    lines[1..lines.len() - 1].to_vec()
}

fn ask_by(reading: Reading, book: &[u8], questions: &str) -> String {
    let mut output = Vec::new();
    seen(book, reading, questions.as_bytes(), &mut output).unwrap();
    String::from_utf8(output).unwrap()
}

fn ask(book: &[u8], questions: &str) -> String {
    ask_by(Reading::Right, book, questions)
}

#[test]
fn the_bars_of_the_two_books() {
    let print = |book: &[u8]| bars(book, Reading::Right);
    let first = "group 3 ticks 6 records 8\n2 0 1 5 add ended\n5 1 4 6 join open\nbars 2\n";
    assert_eq!(print(&first_book()), first);
    let second = "group 3 ticks 5 records 7\n2 0 1 5 add open\n5 1 4 5 join open\nbars 2\n";
    assert_eq!(print(&book::write(5, 3, &FIRST_BOOK[..7], 48).unwrap()), second);
    assert_eq!(print(&book_of("", &[], 0)), "group 3 ticks 0 records 0\nbars 0\n");
    assert_eq!(print(&first_book()[..51]), "refused 21\n");
    assert_eq!(print(&bytes(&[28, 5, 2, 20, 3, 4610, 4610])), "refused 25 at 1\n");
}

#[test]
fn bars_by_the_moment_at_their_first_tick() {
    assert_eq!(bars_of("LJ1", &["LA1"], 1), ["0 0 1 1 add open"], "both moments in one tick");
    assert_eq!(bars_of("LJ2", &["LA1"], 2), ["0 0 2 2 join open"]);
    assert_eq!(bars_of("SJ1", &["LA2"], 9), ["0 0 2 9 add open"]);
    assert_eq!(bars_of("SJ1 LL3 LJ5", &["LA2"], 9), ["0 0 2 9 add open"], "a join within");
    assert_eq!(bars_of("LJ2", &["LA1 LR3 SA4"], 9), ["0 0 2 9 join open"], "an add within");
    assert_eq!(bars_of("LJ1 LL2", &["SA2"], 9), [""; 0], "an add as the model leaves");
    assert_eq!(bars_of("SJ1", &["SA1 SR9"], 9), ["0 0 1 8 add ended"], "in the last tick");
    let both_kinds = ["0 0 1 1 add ended", "0 0 3 3 join ended"];
    assert_eq!(bars_of("LJ1 SL2 LJ3 SL4", &["LA1"], 5), both_kinds);
    let two_sheets = ["0 0 1 1 add ended", "0 1 2 3 add ended"];
    assert_eq!(bars_of("LJ1 SL4", &["LA1 SR2", "LA2"], 5), two_sheets);
    let after_a_leave = ["0 0 1 1 add ended", "0 1 3 3 join ended"];
    assert_eq!(bars_of("LJ1 LL2 LJ3 SL4", &["LA1 SR2", "LA2"], 5), after_a_leave);
}

#[test]
fn questions_about_the_first_book() {
    let ask = |question: &str| ask(&first_book(), question);
    assert_eq!(ask("2 6 0\n"), "0 1..5\nnot clean 1\n");
    assert_eq!(ask("2 1 0\n"), "0 1..5\nnot clean 1\n", "a span that begins at the tick");
    assert_eq!(ask("5 4 1\n"), "1 4..6\nnot clean 4\n", "likewise, by join");
    assert_eq!(ask("5 3 1\n"), "1 never\nclean\n", "a span after the tick only");
    assert_eq!(ask("2 0 0\n"), "0 never\nclean\n", "no tick yet");
    assert_eq!(ask("2 6 1\n"), "1 never\nclean\n", "another model's");
    assert_eq!(ask("63 6 254-255\n"), "254 never\n255 never\nclean\n");
    assert_eq!(ask("05 006 0001-2\n"), "1 4..6\n2 never\nnot clean 4\n");
    let both = "0 1..5\n1 never\nnot clean 1\n0 never\n1 4..6\nnot clean 4\n";
    assert_eq!(ask("2 6 0-1\n5 6 0-1"), both, "the last line without its end");
    assert_eq!(ask(""), "");
}

#[test]
fn the_sheets_of_a_question() {
    let book = book_of("SJ1 SL6 LJ8", &["SA5", "LA2 SR3 SA4", "SA9", "LA6"], 9);
    let ask = |question: &str| ask(&book, question);
    let all = "0 5..5\n1 2..2 4..5\n2 9..9\n3 8..9\nnot clean 2\n";
    assert_eq!(ask("0 9 0-3\n"), all, "the earliest of all is not the first sheet's");
    for set in ["0,1,2,3", "3,2,1,0", "0-3,0-3", "2,0-1,1-3,2-2", "3,3,3,0-2", "0-0,1-1,2-3"] {
        assert_eq!(ask(&format!("0 9 {set}\n")), all, "{set}");
    }
    assert_eq!(ask("0 3 1\n"), "1 2..2\nnot clean 2\n");
    assert_eq!(ask("0 4 1\n"), "1 2..2 4..5\nnot clean 2\n");
    assert_eq!(ask("0 8 0-3\n"), "0 5..5\n1 2..2 4..5\n2 never\n3 8..9\nnot clean 2\n");
    assert_eq!(ask("0 9 2-3\n"), "2 9..9\n3 8..9\nnot clean 8\n");
    let everything = ask("0 1 0-255\n");
    assert_eq!(everything.lines().count(), 257);
    assert!(everything.starts_with("0 never\n1 never\n2 never\n"));
    assert!(everything.ends_with("254 never\n255 never\nclean\n"));
}

const NO_QUESTIONS: [&[&str]; 7] = [
    // Not three words with one blank between.
    &["", " ", "2", "2 6", "2 6 ", "2  6 0", " 2 6 0", "2 6 0 ", "2 6 0 1", "2 6 0, 1"],
    &["2\t6\t0", "2 6 0\r", "2,6,0", "2 6 0\u{a0}"],
    // Out of range, and above what 32 and 64 bits can hold.
    &["64 6 0", "2 7 0", "2 6 256", "2 6 0-256", "4294967298 6 0", "2 18446744073709551622 0"],
    // No numbers, or too many digits.
    &["x 6 0", "2 x 0", "-2 6 0", "+2 6 0", "2 6.0 0", "2 6 0x", "2 6 \u{663}", "2 6 0\0"],
    &["000000000000000000002 6 0", "2 000000000000000000006 0", "2 6 000000000000000000000"],
    // No sets: a part is missing, other signs, a falling range.
    &["2 6 ,", "2 6 0,", "2 6 ,0", "2 6 0,,1", "2 6 -", "2 6 -0", "2 6 0-", "2 6 0--1"],
    &["2 6 0-1-2", "2 6 0;1", "2 6 0..1", "2 6 1-0", "2 6 5,255-0"],
];

#[test]
fn lines_that_are_no_questions() {
    for line in NO_QUESTIONS.concat() {
        let answers = ask(&first_book(), &format!("{line}\n2 6 0\n{line}\n"));
        assert_eq!(answers, "what?\n0 1..5\nnot clean 1\nwhat?\n", "{line:?}");
    }
    let mut output = Vec::new();
    seen(&first_book(), Reading::Right, &b"2 6 \xff\n2 6"[..], &mut output).unwrap();
    assert_eq!(output, b"what?\nwhat?\n");
}

#[test]
fn questions_about_books_without_ticks_and_refused_ones() {
    let fresh = book_of("", &[], 0);
    assert_eq!(ask(&fresh, "0 0 0\n0 1 0\n"), "0 never\nclean\nwhat?\n");
    assert_eq!(ask(&first_book()[..51], "2 6 0\nwhat\n"), "refused 21\n");
    assert_eq!(ask(&bytes(&[28, 5, 2, 20, 3, 4610, 4610]), ""), "refused 25 at 1\n");
    let last = book_of("SJ1000000", &["LA1000000"], 1_000_000);
    assert_eq!(ask(&last, "0 999999 0\n"), "0 never\nclean\n");
    assert_eq!(ask(&last, "0 1000000 0\n"), "0 1000000..1000000\nnot clean 1000000\n");
    assert_eq!(ask(&last, "0 1000001 0\n"), "what?\n");
}

/// Every "since" of five ticks, by what p and q are in each of them.
#[test]
fn since_at_each_tick_is_since() {
    const TICKS: usize = 5;
    for code in 0..1_u32 << (2 * TICKS) {
        let (p, q) = (|t: usize| code >> t & 1 == 1, |t: usize| code >> (TICKS + t) & 1 == 1);
        let each: Vec<bool> = (0..TICKS).map(|t| since(t, p, q)).collect();
        assert_eq!(since_at_each(TICKS, p, q), each, "{code:b}");
    }
}

/// The moments and grants in one pass are the formula's at each tick.
fn same_as_the_formula(history: &History) {
    let places = 0..history.ticks.len();
    let by_add: Vec<bool> = places.clone().map(|t| history.moment_by_add(t)).collect();
    let by_join: Vec<bool> = places.clone().map(|t| history.moment_by_join(t)).collect();
    let grants: Vec<bool> = places.map(|t| history.grant_at(t)).collect();
    assert_eq!(history.moments(), (by_add, by_join), "{history:?}");
    assert_eq!(history.grants(), grants, "{history:?}");
}

/// The answer to a question about sheet 0, with the formula asked at every tick up to it.
fn answer_tick_by_tick(model: &[Event], sheet: &[Event], tick: u32, now: u32) -> String {
    let every = History::of_every_tick(model, sheet, now);
    let held = (0..tick).find(|&t| every.grant_at(t as usize)).map(|t| t + 1);
    let Some(earliest) = held else {
        return "0 never\nclean\n".to_string();
    };
    let spans = spans_tick_by_tick(model, sheet, now);
    let shown = spans.iter().filter(|span| span.first <= tick);
    let shown: String = shown.map(|span| format!(" {}..{}", span.first, span.last)).collect();
    format!("0{shown}\nnot clean {earliest}\n")
}

/// Every history of four ticks and one more: each question's answer is that of the formula tick
/// by tick, and each bar's kind is that of the moment which the judge gives at its first tick.
#[test]
fn the_page_tick_by_tick() {
    const TICKS: u32 = 4;
    let now = TICKS + 1;
    for (model, sheet) in every_history(TICKS) {
        let history = History::of_event_ticks(&model, &sheet);
        same_as_the_formula(&history);
        same_as_the_formula(&History::of_every_tick(&model, &sheet, now));
        let spans = spans_tick_by_tick(&model, &sheet, now);
        for (span, moment) in spans.iter().zip(beginnings(&history, &spans)) {
            let up_to = |strip: &[Event]| -> Vec<u32> {
                let early = strip.iter().filter(|event| event.tick <= span.first);
                early.map(|event| event.word()).collect()
            };
            let judged = judge(&up_to(&model), &up_to(&sheet), span.first);
            assert_eq!(judged, Ok(Verdict::Granted(moment)), "{model:?} {sheet:?}");
        }
        let book = book_of_events(&model, &sheet, now);
        for tick in 0..=now {
            let expected = answer_tick_by_tick(&model, &sheet, tick, now);
            assert_eq!(ask(&book, &format!("0 {tick} 0\n")), expected, "{model:?} {sheet:?}");
        }
    }
}

/// Each wrong reading of the formula shows in some bar and in some answer; one that has only the
/// delivery wrong shows in none.
#[test]
fn wrong_readings_show_on_the_page() {
    let print = |book: &[u8], reading| {
        let bar = bars(book, reading).lines().nth(1).unwrap().to_string();
        (bar, ask_by(reading, book, "0 4 0\n").replace('\n', " "))
    };
    let shown = |bar: &str, answer: &str| (bar.to_string(), answer.to_string());
    let none = shown("bars 0", "0 never clean ");
    let leak = book_of("SJ1 LL2 SJ4", &["LA3"], 4);
    assert_eq!(print(&leak, Reading::Today), shown("0 0 4 4 add open", "0 4..4 not clean 4 "));
    let add_and_leave = book_of("SJ1 LL2", &["LA2"], 4);
    let arrives = shown("0 0 2 4 add open", "0 2..4 not clean 2 ");
    assert_eq!(print(&add_and_leave, Reading::Arrival), arrives);
    for reading in [Reading::Right, Reading::Latest, Reading::Entry] {
        assert_eq!(
            (print(&leak, reading), print(&add_and_leave, reading)),
            (none.clone(), none.clone())
        );
    }
    let outlived = book_of("SJ1 LL3 SJ4", &["SA2"], 4);
    assert_eq!(
        print(&outlived, Reading::Latest),
        shown("0 0 2 3 add ended", "0 2..3 not clean 2 ")
    );
    assert_eq!(print(&outlived, Reading::Entry), shown("0 0 2 4 add open", "0 2..4 not clean 2 "));
}

/// A wrong reading, too, has a moment and a first grant for the spans of each history.
#[test]
fn the_page_by_wrong_readings() {
    const TICKS: u32 = 4;
    for (model, sheet) in every_history(TICKS) {
        for (name, reading) in READINGS {
            let spans = spans_by(reading, &model, &sheet, TICKS);
            let earliest = earliest_by(reading, &model, &sheet);
            assert_eq!(
                earliest,
                spans.first().map(|span| span.first),
                "{name} {model:?} {sheet:?}"
            );
            assert_eq!(beginnings_by(reading, &model, &sheet, &spans).len(), spans.len());
        }
    }
}

#[test]
fn questions_about_the_thirteen_histories() {
    for (model, sheet, now, verdict) in thirteen_histories() {
        let answer = ask(&book_of(model, &[sheet], now), &format!("0 {now} 0\n"));
        let open = answer.lines().next().is_some_and(|line| line.ends_with(&format!("..{now}")));
        assert_eq!(open, verdict.is_granted(), "{model} | {sheet} | {now}");
    }
}
