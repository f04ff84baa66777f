//! Changes to a keeper's script, line by line.

use crate::common::{mutate_bytes, Chance};
use second::event::KINDS;
use second::limits::DELIVERY_BUFFER;

const FILES: [&str; 10] = ["a", "b", "c", "d", "a", "b", "c", "new", "!full", "."];
const LIMITS: [&str; 5] = ["most", "over", "long", "full", "none"];

/// More lines than this come from libFuzzer's own changes alone.
const USUAL_LINES: usize = 200;

pub fn mutate_script(script: &mut Vec<u8>, chance: &mut Chance) {
    let mut lines: Vec<Vec<u8>> = script.split(|&byte| byte == b'\n').map(<[u8]>::to_vec).collect();
    for _ in 0..=chance.below(4) {
        let at = chance.below(lines.len());
        match chance.below(13) {
            0 | 1 if !lines.is_empty() => drop(lines.remove(at)),
            2 if !lines.is_empty() => mutate_bytes(&mut lines[at], 300),
            3 if !lines.is_empty() => lines[at] = line(chance).into_bytes(),
            4 if lines.len() > 1 => {
                let other = chance.below(lines.len());
                lines.swap(at, other);
            }
            5 => repeat(&mut lines, at, chance),
            // where the line ends in a file's name, that isn't UTF-8 any more
            6 if !lines.is_empty() => lines[at].push(chance.pick(b"\xff\x80\xc3")),
            _ if lines.len() < USUAL_LINES => lines.insert(at, line(chance).into_bytes()),
            _ => lines.truncate(at),
        }
    }
    *script = lines.join(&b'\n');
}

/// A part of the script once more, somewhere.
fn repeat(lines: &mut Vec<Vec<u8>>, at: usize, chance: &mut Chance) {
    let end = (at + 1 + chance.below(8)).min(lines.len());
    if at < end && lines.len() < USUAL_LINES {
        let part = lines[at..end].to_vec();
        let to = chance.below(lines.len() + 1);
        lines.splice(to..to, part);
    }
}

fn file(chance: &mut Chance) -> &'static str {
    match chance.below(16) {
        0 => chance.pick(&LIMITS),
        1 => "~broken",
        _ => chance.pick(&FILES),
    }
}

fn line(chance: &mut Chance) -> String {
    let file = file(chance);
    match chance.below(32) {
        0..=6 => "close".to_string(),
        7 => format!("request {} {}", chance.number(8), chance.number(64)),
        8..=10 => format!("read {} {}", chance.number(64), chance.number(256)),
        11 => format!("models {}", chance.number(256)),
        12 => format!("load {file}"),
        13 => format!("save {file}"),
        14 | 15 => format!("store {file}"),
        16 | 17 => format!("deliver {} {} {file}", chance.number(64), capacity(chance)),
        18 => format!("fresh {}", chance.number(16)),
        19 => odd_line(chance),
        _ => request(chance),
    }
}

fn request(chance: &mut Chance) -> String {
    let kind = chance.pick(&KINDS);
    format!("{kind:?} {}", chance.number(kind.side().carriers()))
}

fn capacity(chance: &mut Chance) -> u32 {
    match chance.below(4) {
        0 => 8 + chance.below(64) as u32,
        1 => chance.pick(&[0, 7, 8, 15, 16, DELIVERY_BUFFER - 1, DELIVERY_BUFFER + 1]),
        _ => DELIVERY_BUFFER,
    }
}

/// Lines at the edges of the language.
fn odd_line(chance: &mut Chance) -> String {
    let zeros = "0".repeat(chance.below(12));
    match chance.below(12) {
        0 => "help".to_string(),
        1 => format!("  close{}", " ".repeat(chance.pick(&[0, 1, 248, 249]))),
        2 => format!("read {zeros}1 {zeros}2"),
        3 => format!(
            "read {}",
            chance.pick(&["4294967295 0", "4294967296 0", "99999999999 x", "+1 1"])
        ),
        4 => format!("save {}", "n".repeat(chance.pick(&[199, 200, 201, 249, 250, 251]))),
        5 => format!("load {}", "n".repeat(chance.pick(&[200, 201]))),
        6 => format!("SJ {zeros}{}", chance.number(64)),
        7 => chance
            .pick(&["close\r", "sj 1", "", "   ", "help me", "close 1", "SA", "deliver 1 2"])
            .to_string(),
        8 => "x".repeat(chance.pick(&[254, 255, 256, 400])),
        9 => format!("deliver 64 {} x", chance.pick(&["1114112", "1114113", "4294967296", "a"])),
        10 => format!("{} {}", request(chance), chance.pick(&["1", "", "x"])),
        _ => chance
            .pick(&["save a/b", "load ./a", "store ..", "save .", "load a\0", "save a\0b"])
            .to_string(),
    }
}
