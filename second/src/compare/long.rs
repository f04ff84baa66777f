//! One session that uses up all 1,000,000 ticks by closing them, with events far apart.

use crate::books::event;
use crate::case::{Case, Run, Trial};
use crate::chance::Chance;
use second::event::Side;
use second::limits::LAST_TICK;

const PAIRS: u32 = 4;

pub fn long(chance: &mut Chance) -> Case {
    let mut case = Case::new(Trial::Keeper);
    let mut is_in = [[false; PAIRS as usize]; 2];
    for tick in 1..=LAST_TICK {
        if chance.within(0..=4_999) == 0 || tick >= LAST_TICK - 3 {
            for (place, side) in [Side::Model, Side::Sheet].into_iter().enumerate() {
                let number = chance.within(0..=PAIRS - 1);
                let there = &mut is_in[place][number as usize];
                let kind = event(side, tick, *there, chance.percent(60), number).kind;
                *there = !*there;
                case.add_line(Run::Both, format!("{kind:?} {number}").as_bytes());
            }
            let (model, sheet) = (chance.within(0..=PAIRS - 1), chance.within(0..=PAIRS - 1));
            case.add_line(Run::Both, format!("read {model} {sheet}").as_bytes());
        }
        case.add_line(Run::Both, b"close");
    }
    for line in
        ["close", "SJ 9", "SJ 64", "request 8 0", "models 0", "save end", "load end", "models 0"]
    {
        case.add_line(Run::Both, line.as_bytes());
    }
    case
}
