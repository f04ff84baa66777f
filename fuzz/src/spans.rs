//! Fuzzes the C spans: an input is how much more room the list has than is needed (1 byte, signed),
//! now and two strips. The answers have to be equal, and every number of the list, with guards on both
//! sides.

mod chosen;
mod common;
mod places;
mod strips;
mod words;

use chosen::chosen;
use common::{case_wanted, differs, hexadecimal, reading, tally, Chance};
use second::answers::SpansAnswer;
use second::judge::{events, words as words_of};
use second::limits::LAST_TICK;
use second::refusal::Refusal;
use second::spans::{listed, spans, Span, SPAN_NUMBERS};
use second::wrong::spans_by;
use strips::{lengthened, parts};

fuzz_target!(check, mutate);

extern "C" {
    fn ferrulebee_spans(
        model: *const u32,
        model_words: usize,
        sheet: *const u32,
        sheet_words: usize,
        now: u32,
        list: *mut u32,
        list_words: usize,
    ) -> SpansAnswer;
}

/// Numbers before and after the lent list, which stay.
const GUARDS: usize = 4;

fn check(input: &[u8]) {
    let Some((&more, rest)) = input.split_first() else { return };
    let more = more as i8;
    let (now, model, sheet) = parts(rest);
    if case_wanted() {
        return print_case(more, now, model, sheet);
    }
    compare(more, now, &words_of(model), &words_of(sheet));
    if chosen(input, 512) {
        for (model, sheet) in lengthened(model, sheet) {
            compare(more, now.max(LAST_TICK), &words_of(&model), &words_of(&sheet));
        }
    }
}

fn compare(more: i8, now: u32, model: &[u32], sheet: &[u32]) {
    let found = expected(model, sheet, now);
    let needed = found.as_ref().map_or(0, |spans| SPAN_NUMBERS * spans.len());
    let room = needed.saturating_add_signed(isize::from(more));
    let answer = found.and_then(|spans| listed(&spans, room));
    let mut list: Vec<u32> = (0..(GUARDS + room + GUARDS) as u32).map(|at| !at).collect();
    let mut wanted = list.clone();
    if let Ok(numbers) = &answer {
        wanted[GUARDS..GUARDS + numbers.len()].copy_from_slice(numbers);
    }
    let second = SpansAnswer::from(answer.map(|numbers| numbers.len() / SPAN_NUMBERS));
    // All slices are lent for the call with their true lengths.
    let gate = unsafe {
        let lent = list[GUARDS..GUARDS + room].as_mut_ptr();
        let (m, s) = (model.as_ptr(), sheet.as_ptr());
        ferrulebee_spans(m, model.len(), s, sheet.len(), now, lent, room)
    };
    if (gate, &list) != (second, &wanted) {
        let said = |answer: SpansAnswer, list: &[u32]| format!("{answer:?} {list:?}").into_bytes();
        let what =
            format!("spans at {now}, {} and {} words, room {room}", model.len(), sheet.len());
        differs(&what, &said(gate, &list), &said(second, &wanted));
    }
    tally(&match (second.code, second.count) {
        (0, 0) => "no span".to_string(),
        (0, 1) => "one span".to_string(),
        (0, _) => "many spans".to_string(),
        (code, _) => format!("refused {code}"),
    });
}

/// The second program's spans; those of the wrong reading where one is set.
fn expected(model: &[u32], sheet: &[u32], now: u32) -> Result<Vec<Span>, Refusal> {
    spans(model, sheet, now)?;
    Ok(spans_by(reading(), &events(model), &events(sheet), now))
}

fn print_case(more: i8, now: u32, model: &[u8], sheet: &[u8]) {
    println!("trial library");
    println!("file both model0 {}", hexadecimal(model));
    println!("file both sheet0 {}", hexadecimal(sheet));
    println!("line both spans 0 {now} {more:+}");
}

/// Mostly just enough room, one number less or more.
fn mutate(input: &mut Vec<u8>, most: usize, chance: &mut Chance) {
    let (more, mut rest) = input.split_first().map_or((0, Vec::new()), |(m, r)| (*m, r.to_vec()));
    let more =
        if chance.one_in(4) { chance.pick(&[0, 0, -1, -1, -2, 1, -128, 9]) } else { more as i8 };
    strips::mutate(&mut rest, most.saturating_sub(1), chance);
    *input = [&[more as u8][..], &rest].concat();
}
