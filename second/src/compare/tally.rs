//! What the random cases reach: how often each sort of answer is expected in them.

use crate::case::{Case, Run, Trial};
use crate::differ::{expected_of_keeper, expected_of_spans, sort_of};
use second::listing::listing;
use second::wrong::Reading;
use std::collections::BTreeMap;

/// Every sort of answer that the programs can give, except help's lines.
#[rustfmt::skip]
const ALL: [&str; 42] = [
    "fresh", "ok", "closed", "granted", "denied", "models", "group", "saved", "store", "delivered",
    "delivered nothing", "grant", "can't open", "what? line", "what? unknown", "what? missing",
    "what? extra", "what? not", "what? number", "what? buffer", "what? file", "refused 1",
    "refused 2", "refused 3", "refused 4", "refused 5", "refused 6", "refused 9", "refused 20",
    "refused 21", "refused 22", "refused 23", "refused 24", "refused 25", "refused 26",
    "refused 31", "refused 32", "refused 33", "refused 34", "span", "spans", "usage:",
];

#[derive(Default)]
pub struct Tally {
    counts: BTreeMap<String, u64>,
}

impl Tally {
    pub fn add(&mut self, case: &Case) {
        match case.trial {
            Trial::Book => {
                let book = case.file(b"book");
                self.add_lines(listing(book, Reading::Right).as_bytes());
                self.add_lines(expected_of_spans(&[], book).as_bytes());
                self.add_lines(expected_of_spans(&case.arguments(), book).as_bytes());
            }
            _ => {
                let expected = expected_of_keeper(case, Run::Left);
                expected.answers.iter().for_each(|answer| self.add_lines(answer));
            }
        }
    }

    fn add_lines(&mut self, lines: &[u8]) {
        for line in String::from_utf8_lossy(lines).lines() {
            *self.counts.entry(sort_of(line)).or_default() += 1;
        }
    }

    /// Prints the counts; true when every sort was reached.
    pub fn print(&self) -> bool {
        let count = |sort: &str| self.counts.get(sort).copied().unwrap_or(0);
        let shown: Vec<String> =
            ALL.iter().map(|sort| format!("{}: {sort}", count(sort))).collect();
        println!("answers: {}", shown.join(", "));
        let mut missing = ALL.iter().filter(|sort| count(sort) == 0).peekable();
        let complete = missing.peek().is_none();
        missing.for_each(|sort| println!("never reached: {sort}"));
        complete
    }
}
