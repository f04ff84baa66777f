//! Every well-formed history of one model and one sheet up to 6 ticks: the formula against
//! itself tick by tick, the group, the C library's judge and spans, `listing`, `spans` and `keeper`.

use crate::books::{book_of, event};
use crate::case::{Case, Run, Trial};
use crate::differ::difference;
use crate::gate::{self, Library};
use crate::library::same_spans;
use crate::programs::Programs;
use crate::progress::Progress;
use second::answers::ValueAnswer;
use second::event::{Event, Side};
use second::formula::History;
use second::group::Group;
use second::judge::{bytes, judge, judge_bytes, packed, verdict, Verdict};
use second::record::GroupRecord;
use second::spans::{spans, spans_tick_by_tick, tied, SPAN_NUMBERS};
use std::io;

const MOST_TICKS: u32 = 6;
/// In a tick a carrier has nothing, a strict event or a liberal one.
const CHOICES: u32 = 3;

/// A strip by its code: the digits of base 3 say what the carrier has in each tick.
fn strip(side: Side, code: u32, ticks: u32, number: u32) -> Vec<Event> {
    let mut strip = Vec::new();
    let (mut is_in, mut rest) = (false, code);
    for tick in 1..=ticks {
        if rest % CHOICES > 0 {
            strip.push(event(side, tick, is_in, rest % CHOICES == 2, number));
            is_in = !is_in;
        }
        rest /= CHOICES;
    }
    strip
}

fn strips(side: Side, ticks: u32) -> Vec<Vec<Event>> {
    (0..CHOICES.pow(ticks)).map(|code| strip(side, code, ticks, 0)).collect()
}

fn words(strip: &[Event]) -> Vec<u32> {
    strip.iter().map(|event| event.word()).collect()
}

/// Compares everything; the first case that differs is given back. The programs come first:
/// a wrong one is found in a moment.
pub fn exhaustive(programs: &Programs) -> io::Result<Option<Case>> {
    println!("exhaustive: {}", gate::notice());
    if programs.listing.is_some() || programs.spans.is_some() {
        if let Some(case) = by_books(programs)? {
            return Ok(Some(case));
        }
    }
    if programs.keeper.is_some() {
        if let Some(case) = by_keeper(programs)? {
            return Ok(Some(case));
        }
    }
    Ok(in_process())
}

fn in_process() -> Option<Case> {
    let total = (0..=MOST_TICKS).map(|ticks| u64::from(CHOICES).pow(2 * ticks)).sum();
    let mut progress = Progress::new("exhaustive, histories", total);
    let mut done = 0;
    for ticks in 0..=MOST_TICKS {
        let (models, sheets) = (strips(Side::Model, ticks), strips(Side::Sheet, ticks));
        for model in &models {
            for sheet in &sheets {
                if let Some(case) = one_history(model, sheet, ticks) {
                    return Some(case);
                }
                done += 1;
            }
            progress.show(done);
        }
    }
    let library = match gate::LIBRARY {
        Some(_) => ", by the C library's judge, spans and gate",
        None => "",
    };
    println!(
        "exhaustive: {done} histories judged by the formula, by the group{library} in {:.1} s",
        progress.seconds()
    );
    None
}

fn one_history(model: &[Event], sheet: &[Event], now: u32) -> Option<Case> {
    let (m, s) = (words(model), words(sheet));
    let by_formula = verdict(&History::of_every_tick(model, sheet, now));
    let by_judge = judge(&m, &s, now);
    assert_eq!(by_judge, Ok(by_formula), "the second program's own judge: {model:?} {sheet:?}");
    let by_tick = Ok(spans_tick_by_tick(model, sheet, now));
    assert_eq!(spans(&m, &s, now), by_tick, "its own spans: {model:?} {sheet:?}");
    assert!(tied(packed(by_judge), &by_tick, now), "its own tie: {model:?} {sheet:?}");
    let group = group_of(model, sheet, now);
    let granted = group.read(0, 0) == Ok(true);
    assert_eq!(granted, by_formula.is_granted(), "its own group: {model:?} {sheet:?}");
    by_library(gate::LIBRARY?, &group, &m, &s)
}

/// The C library's judge and spans on the strips, and its gate on the calls that make them.
fn by_library(library: &Library, group: &Group, model: &[u32], sheet: &[u32]) -> Option<Case> {
    let (model_bytes, sheet_bytes, now) = (bytes(model), bytes(sheet), group.closed);
    if library.judge(&model_bytes, &sheet_bytes, now)
        != judge_bytes(&model_bytes, &sheet_bytes, now)
    {
        return Some(Case::judge(model_bytes, sheet_bytes, now));
    }
    if !spans_agree(library, model, sheet, now) {
        return Some(Case::spans(model_bytes, sheet_bytes, now, &[0, -1]));
    }
    (!gate_agrees(library, group)).then(|| gate_case(group))
}

/// With a list of just enough room, and one number less where there are spans.
fn spans_agree(library: &Library, model: &[u32], sheet: &[u32], now: u32) -> bool {
    let found = spans(model, sheet, now);
    let needed = found.as_ref().map_or(0, |spans| SPAN_NUMBERS * spans.len());
    let agrees = |room| same_spans(library, model, sheet, now, &found, room).is_ok();
    agrees(needed) && (needed == 0 || agrees(needed - 1))
}

/// From fresh to the last close every request and close is taken; then the record and the
/// read are as the history has them.
fn gate_agrees(library: &Library, group: &Group) -> bool {
    let mut gate = library.fresh(group.number);
    let mut taken = gate.code == 0;
    for tick in 1..=group.closed {
        for event in group.events.iter().filter(|event| event.tick == tick) {
            gate = library.request(gate.group, event.kind.number(), event.number);
            taken &= gate.code == 0;
        }
        gate = library.close(gate.group);
        taken &= gate.code == 0;
    }
    let read = library.read(gate.group, 0, 0);
    let granted = group.read(0, 0).map(u32::from);
    taken && gate.group == GroupRecord::of_history(group) && read == ValueAnswer::from(granted)
}

/// The same calls as a case.
fn gate_case(group: &Group) -> Case {
    let mut case = Case::new(Trial::Library);
    let mut say = |line: String| case.add_line(Run::Both, line.as_bytes());
    say(format!("fresh 0 {}", group.number));
    for tick in 1..=group.closed {
        for event in group.events.iter().filter(|event| event.tick == tick) {
            say(format!("request 0 {} {}", event.kind.number(), event.number));
        }
        say("close 0".to_string());
    }
    say("read 0 0 0".to_string());
    case
}

fn group_of(model: &[Event], sheet: &[Event], now: u32) -> Group {
    let mut group = Group::default();
    for tick in 1..=now {
        for event in model.iter().chain(sheet).filter(|event| event.tick == tick) {
            let answer = group.request(event.kind.number(), event.number);
            assert_eq!(answer, Ok(()), "a well-formed request");
        }
        assert_eq!(group.close(), Ok(tick));
    }
    group
}

/// Many strips side by side in one group: 64 models by 256 sheets cover 16,384 histories.
struct Batch {
    models: Vec<Vec<Event>>,
    sheets: Vec<Vec<Event>>,
}

fn batches() -> Vec<Batch> {
    let codes: Vec<u32> = (0..CHOICES.pow(MOST_TICKS)).collect();
    let side_by_side = |side: Side, codes: &[u32]| -> Vec<Vec<Event>> {
        let strip_at =
            |(number, &code): (usize, &u32)| strip(side, code, MOST_TICKS, number as u32);
        codes.iter().enumerate().map(strip_at).collect()
    };
    let mut batches = Vec::new();
    for models in codes.chunks(Side::Model.carriers() as usize) {
        for sheets in codes.chunks(Side::Sheet.carriers() as usize) {
            batches.push(Batch {
                models: side_by_side(Side::Model, models),
                sheets: side_by_side(Side::Sheet, sheets),
            });
        }
    }
    batches
}

impl Batch {
    fn events_of_tick(&self, tick: u32) -> impl Iterator<Item = &Event> {
        let all = self.models.iter().chain(&self.sheets).flatten();
        all.filter(move |event| event.tick == tick)
    }

    fn book(&self, ticks: u32) -> Vec<u8> {
        let events = (1..=ticks).flat_map(|tick| self.events_of_tick(tick));
        let mut words: Vec<u32> = events.map(|event| event.word()).collect();
        words.sort_unstable();
        book_of(ticks, 0, &words)
    }
}

fn by_books(programs: &Programs) -> io::Result<Option<Case>> {
    let batches = batches();
    let total = batches.len() as u64 * u64::from(MOST_TICKS);
    let mut progress = Progress::new("exhaustive, books through listing and spans", total);
    let mut done = 0;
    for batch in &batches {
        for ticks in 1..=MOST_TICKS {
            let case = Case::book(batch.book(ticks), &[]);
            if difference(&case, programs)?.is_some() {
                return Ok(Some(case));
            }
            done += 1;
            progress.show(done);
        }
    }
    println!(
        "exhaustive: all histories in {done} books through listing and spans in {:.1} s",
        progress.seconds()
    );
    Ok(None)
}

fn by_keeper(programs: &Programs) -> io::Result<Option<Case>> {
    let batches = batches();
    let mut progress = Progress::new("exhaustive, sessions through keeper", batches.len() as u64);
    let mut reads = 0;
    for (place, batch) in batches.iter().enumerate() {
        let (input, expected) = session(batch);
        let got = programs.run_keeper(&input, &Default::default())?;
        if got.output != expected || got.trouble.is_some() {
            return Ok(Some(smallest_session(batch, &got.output, &expected)));
        }
        reads += u64::from(MOST_TICKS) * (batch.models.len() * batch.sheets.len()) as u64;
        progress.show(place as u64 + 1);
    }
    println!(
        "exhaustive: all histories, {reads} reads, through keeper in {:.1} s",
        progress.seconds()
    );
    Ok(None)
}

/// The batch's requests tick by tick, every pair read after each close; and the answers.
fn session(batch: &Batch) -> (Vec<u8>, Vec<u8>) {
    let (mut input, mut expected) = (String::new(), String::new());
    for tick in 1..=MOST_TICKS {
        for event in batch.events_of_tick(tick) {
            input += &format!("{:?} {}\n", event.kind, event.number);
            expected += "ok\n";
        }
        input += "close\n";
        expected += &format!("closed {tick}\n");
        for (m, model) in batch.models.iter().enumerate() {
            for (s, sheet) in batch.sheets.iter().enumerate() {
                input += &format!("read {m} {s}\n");
                let granted = verdict_up_to(model, sheet, tick).is_granted();
                expected += if granted { "granted\n" } else { "denied\n" };
            }
        }
    }
    (input.into_bytes(), expected.into_bytes())
}

fn verdict_up_to(model: &[Event], sheet: &[Event], tick: u32) -> Verdict {
    let up_to = |strip: &[Event]| strip.partition_point(|event| event.tick <= tick);
    verdict(&History::of_event_ticks(&model[..up_to(model)], &sheet[..up_to(sheet)]))
}

/// The session of the one pair whose read differs first, to be shrunk quickly; the whole
/// session when no read does.
fn smallest_session(batch: &Batch, got: &[u8], expected: &[u8]) -> Case {
    let lines = |bytes: &[u8]| -> Vec<Vec<u8>> {
        bytes.split(|&byte| byte == b'\n').map(<[u8]>::to_vec).collect()
    };
    let (input, _) = session(batch);
    let different = lines(got).iter().zip(&lines(expected)).position(|(a, b)| a != b);
    let command = different.and_then(|place| lines(&input).get(place).cloned()).unwrap_or_default();
    let command = String::from_utf8(command).unwrap_or_default();
    let mut words = command.split(' ');
    let mut number = || words.next().and_then(|word| word.parse::<usize>().ok());
    number();
    let input = match (number(), number()) {
        (Some(model), Some(sheet)) => {
            let one = Batch {
                models: vec![renumbered(&batch.models[model])],
                sheets: vec![renumbered(&batch.sheets[sheet])],
            };
            session(&one).0
        }
        _ => input,
    };
    let mut case = Case::new(Trial::Keeper);
    for line in lines(&input).iter().filter(|line| !line.is_empty()) {
        case.add_line(Run::Both, line);
    }
    case
}

/// The strip as carrier 0's.
fn renumbered(strip: &[Event]) -> Vec<Event> {
    strip.iter().map(|&event| Event { number: 0, ..event }).collect()
}
