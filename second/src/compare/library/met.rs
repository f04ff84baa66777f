//! Which sorts of answers the compared calls had: none may be missing.

use second::limits::LAST_TICK;
use std::collections::BTreeMap;

/// Every sort of answer, by call; `lent` is a call on a group of any contents.
#[rustfmt::skip]
const ALL: [(&str, &[&str]); 19] = [
    ("fresh", &["group", "refused 9"]),
    ("request", &["taken", "refused 1", "refused 2", "refused 3", "refused 4", "refused 5",
        "refused 6"]),
    ("close", &["closed", "refused 3"]),
    ("read", &["granted", "denied", "refused 2"]),
    ("models", &["some", "none", "refused 2"]),
    ("deliver", &["some", "none", "refused 2", "refused 31", "refused 32", "refused 33",
        "refused 34"]),
    ("lent request", &["taken", "refused 1", "refused 2", "refused 3", "refused 4", "refused 5",
        "refused 6"]),
    ("lent close", &["closed", "refused 3"]),
    ("lent read", &["granted", "denied", "refused 2"]),
    ("lent models", &["some", "none", "refused 2"]),
    ("lent deliver", &["some", "none", "refused 2", "refused 31", "refused 32", "refused 33",
        "refused 34"]),
    ("mask", &["some", "none", "refused 7", "refused 2"]),
    ("book_read", &["group", "refused 20", "refused 21", "refused 22", "refused 23", "refused 24",
        "refused 25", "refused 26", "refused 28"]),
    ("book_write", &["book", "refused 22", "refused 24", "refused 25", "refused 26",
        "refused 27"]),
    ("tick_part", &["records", "empty at the start", "empty between", "empty at the end",
        "not rising"]),
    ("judge", &["101", "102", "103", "104 in tick 2", "104 between", "104 in the last tick",
        "105 in tick 2", "105 between", "105 in the last tick", "10", "11", "12", "13", "14"]),
    ("evidence", &["of the model", "of the sheet", "denied", "refused"]),
    ("spans", &["none", "one", "many", "refused 10", "refused 11", "refused 12", "refused 13",
        "refused 14", "refused 40"]),
    ("lent", &["group"]),
];

/// The sort of an answer: its refusal, or how it is called when it is accepted.
pub fn sort(call: &str, code: u32, accepted: &str) -> String {
    match code {
        0 => format!("{call} {accepted}"),
        _ => format!("{call} refused {code}"),
    }
}

/// The sort of the judge's answer: its code, and for a strict cause where its tick lies. No cause
/// is earlier than tick 2, right after a moment in tick 1.
pub fn judge_sort(answer: u64) -> String {
    let (code, value) = (answer >> 32, answer as u32);
    let place = match (code, value) {
        (104 | 105, 2) => " in tick 2",
        (104 | 105, LAST_TICK) => " in the last tick",
        (104 | 105, _) => " between",
        _ => "",
    };
    format!("judge {code}{place}")
}

#[derive(Default)]
pub struct Met {
    counts: BTreeMap<String, u64>,
}

impl Met {
    pub fn add(&mut self, sort: String) {
        *self.counts.entry(sort).or_default() += 1;
    }

    pub fn calls(&self) -> u64 {
        self.counts.values().sum()
    }

    /// Prints the counts of these calls; true when every sort was met.
    pub fn print(&self, calls: impl Fn(&str) -> bool) -> bool {
        let mut complete = true;
        for (call, sorts) in ALL.into_iter().filter(|(call, _)| calls(call)) {
            let count = |sort: &&str| self.counts.get(&format!("{call} {sort}")).copied();
            let shown = sorts.iter().map(|sort| format!("{sort}: {}", count(sort).unwrap_or(0)));
            println!("  {call}: {}", shown.collect::<Vec<_>>().join(", "));
            for sort in sorts.iter().filter(|sort| count(sort).is_none()) {
                println!("never met: {call} {sort}");
                complete = false;
            }
        }
        complete
    }
}
