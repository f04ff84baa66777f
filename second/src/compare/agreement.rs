//! What `listing` and `spans` print of one book has to agree at its last tick: a pair is listed
//! exactly when its last span ends there, and the moment that is listed lies in that span.

use std::collections::BTreeMap;

type Pair = (u32, u32);

/// How the two outputs disagree; None when they don't.
pub fn disagreement(listing: &[u8], spans: &[u8]) -> Option<String> {
    let (listing, spans) = (String::from_utf8_lossy(listing), String::from_utf8_lossy(spans));
    let (head, other) = (listing.lines().next(), spans.lines().next());
    if head != other {
        return Some(format!("listing begins with {head:?}, spans with {other:?}"));
    }
    let &[_, ticks, _] = numbers(head?).as_slice() else {
        return (listing != spans).then(|| "a refusal with lines after it".to_string());
    };
    let (moments, last_spans) = (moments(&listing), last_spans(&spans));
    let open = |pair: &Pair| last_spans.get(pair).filter(|(_, last)| *last == ticks);
    let agree = |pair: &Pair| match (moments.get(pair), open(pair)) {
        (Some(moment), Some(&(first, last))) => (first..=last).contains(moment),
        (moment, span) => moment.is_none() && span.is_none(),
    };
    let pair = moments.keys().chain(last_spans.keys()).find(|pair| !agree(pair))?;
    let (moment, span) = (moments.get(pair), last_spans.get(pair));
    Some(format!("pair {pair:?}: listed moment {moment:?}, last span {span:?}, tick {ticks}"))
}

fn numbers(line: &str) -> Vec<u32> {
    line.split(' ').filter_map(|word| word.parse().ok()).collect()
}

/// The moment of each pair that is listed.
fn moments(listing: &str) -> BTreeMap<Pair, u32> {
    let moment = |line: &str| match numbers(line)[..] {
        [model, sheet, moment] => Some(((model, sheet), moment)),
        _ => None,
    };
    listing.lines().skip(1).filter_map(moment).collect()
}

/// The last span of each pair that has one.
fn last_spans(spans: &str) -> BTreeMap<Pair, (u32, u32)> {
    let span = |line: &str| match numbers(line)[..] {
        [model, sheet, first, last] => Some(((model, sheet), (first, last))),
        _ => None,
    };
    spans.lines().skip(1).filter_map(span).collect()
}
