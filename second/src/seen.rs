//! What `seen` answers. A model was scored at a tick on held-out sheets: had it seen them?

use crate::book;
use crate::event::{Event, Side};
use crate::formula::History;
use crate::group::Group;
use crate::limits::{MODELS, SHEETS, STRIP_WORDS};
use crate::spans::Span;
use crate::spans_of_book::number;
use crate::wrong::{earliest_by, spans_by, Reading};
use std::collections::{BTreeMap, BTreeSet};
use std::io::{self, BufRead, Write};

pub const USAGE: &str = "usage: seen BOOK < QUESTIONS\n";

/// Answers one question a line; of a refused book none is read, and it is one line.
pub fn seen(
    book: &[u8],
    reading: Reading,
    questions: impl BufRead,
    mut output: impl Write,
) -> io::Result<()> {
    let group = match book::read(book, STRIP_WORDS) {
        Ok(group) => group.with_reading(reading),
        Err(refusal) => {
            writeln!(output, "{refusal}")?;
            return output.flush();
        }
    };
    let mut pairs = Pairs::of(&group);
    for line in questions.split(b'\n') {
        match Question::of_line(&line?, group.closed) {
            Some(question) => pairs.answer(&question, &mut output)?,
            None => writeln!(output, "what?")?,
        }
    }
    output.flush()
}

/// Who was scored, when, and on which sheets.
struct Question {
    model: u32,
    tick: u32,
    sheets: BTreeSet<u32>,
}

impl Question {
    /// `MODEL TICK SHEETS`; None where the line is anything else, or the tick isn't closed.
    fn of_line(line: &[u8], closed: u32) -> Option<Question> {
        let words: Vec<&[u8]> = line.split(|&byte| byte == b' ').collect();
        let [model, tick, sheets] = words[..] else {
            return None;
        };
        let (model, tick) = (number(model, MODELS)?, number(tick, closed + 1)?);
        Some(Question { model, tick, sheets: sheets_of(sheets)? })
    }
}

/// The sheets of a set as a person types it, `7,9-12`.
fn sheets_of(set: &[u8]) -> Option<BTreeSet<u32>> {
    let mut sheets = BTreeSet::new();
    for part in set.split(|&byte| byte == b',') {
        let ends = part.split(|&byte| byte == b'-').map(|end| number(end, SHEETS));
        match ends.collect::<Option<Vec<u32>>>()?[..] {
            [sheet] => sheets.extend(sheet..=sheet),
            [first, last] if first <= last => sheets.extend(first..=last),
            _ => return None,
        }
    }
    Some(sheets)
}

/// The earliest tick at which the grant held, by the formula and not by the spans. It is one with
/// an event: in any other the grant is as it was the tick before.
pub fn earliest(history: &History) -> Option<u32> {
    let place = history.grants().iter().position(|&granted| granted);
    place.map(|place| history.ticks[place].tick)
}

/// What a pair's whole history says.
struct Past {
    earliest: Option<u32>,
    spans: Vec<Span>,
}

/// The pairs of a book: a pair's past is gathered when it is first asked for, and then kept.
struct Pairs {
    models: Vec<Vec<Event>>,
    sheets: Vec<Vec<Event>>,
    closed: u32,
    reading: Reading,
    pasts: BTreeMap<(u32, u32), Past>,
}

impl Pairs {
    fn of(group: &Group) -> Pairs {
        Pairs {
            models: group.strips(Side::Model),
            sheets: group.strips(Side::Sheet),
            closed: group.closed,
            reading: group.reading,
            pasts: BTreeMap::new(),
        }
    }

    /// A line for each sheet, and one for all.
    fn answer(&mut self, question: &Question, output: &mut impl Write) -> io::Result<()> {
        let mut earliest_of_all: Option<u32> = None;
        for &sheet in &question.sheets {
            let past = self.past(question.model, sheet);
            let Some(earliest) = past.earliest.filter(|&earliest| earliest <= question.tick) else {
                writeln!(output, "{sheet} never")?;
                continue;
            };
            earliest_of_all = Some(earliest_of_all.map_or(earliest, |tick| tick.min(earliest)));
            write!(output, "{sheet}")?;
            for span in past.spans.iter().take_while(|span| span.first <= question.tick) {
                write!(output, " {}..{}", span.first, span.last)?;
            }
            writeln!(output)?;
        }
        match earliest_of_all {
            None => writeln!(output, "clean"),
            Some(earliest) => writeln!(output, "not clean {earliest}"),
        }
    }

    fn past(&mut self, model: u32, sheet: u32) -> &Past {
        let (closed, reading) = (self.closed, self.reading);
        let strips = (&self.models[model as usize], &self.sheets[sheet as usize]);
        let gather = || Past::of(reading, strips.0, strips.1, closed);
        self.pasts.entry((model, sheet)).or_insert_with(gather)
    }
}

impl Past {
    fn of(reading: Reading, model: &[Event], sheet: &[Event], closed: u32) -> Past {
        let earliest = earliest_by(reading, model, sheet);
        let spans = spans_by(reading, model, sheet, closed);
        let first = spans.first().map(|span| span.first);
        assert_eq!(earliest, first, "the first span begins where the grant first held");
        Past { earliest, spans }
    }
}
