//! Random keeper scripts: whole sessions with requests that are taken and requests that
//! must be refused, books and stores to load, deliveries, and lines that aren't commands.

use crate::books::{any_book, book_near_the_last_tick, event, good_book};
use crate::case::{Case, Run, Trial};
use crate::chance::Chance;
use crate::stores::{any_store, store_with_entries};
use second::event::Side;
use second::files::Memory;
use second::keeper::Keeper;
use second::limits::{DELIVERY_BUFFER, MODELS, SHEETS};
use second::store::deliver;
use second::wrong::Reading;

/// How a script is written: whom it speaks of, and how often it says what.
struct Manner {
    models: Vec<u32>,
    sheets: Vec<u32>,
    lines: u32,
    liberal: u32,
    closes: u32,
    nonsense: u32,
}

struct Author<'a> {
    chance: &'a mut Chance,
    manner: Manner,
    /// The second program's own session, which tells the author where things stand.
    keeper: Keeper<Memory>,
    case: Case,
}

const BOOKS: u32 = 3;
const STORES: u32 = 3;
/// A file that is there and can't be opened: its name is not UTF-8.
const NOT_UTF_8: &[u8] = b"book\xff";

pub fn script(chance: &mut Chance) -> Case {
    let manner = manner(chance);
    let mut author = Author {
        chance,
        manner,
        keeper: Keeper::new(Memory::default(), Reading::Right),
        case: Case::new(Trial::Keeper),
    };
    author.lay_out_files();
    author.begin();
    while (author.case.lines.len() as u32) < author.manner.lines {
        author.step();
    }
    author.end();
    author.case
}

fn manner(chance: &mut Chance) -> Manner {
    let (models, model_limit) = chance.one_of(&[(1, 2), (2, 4), (4, 64), (12, 64), (64, 64)]);
    let (sheets, sheet_limit) =
        chance.one_of(&[(1, 1), (2, 4), (4, 8), (6, 256), (30, 256), (256, 256)]);
    Manner {
        models: chance.pick(models, model_limit),
        sheets: chance.pick(sheets, sheet_limit),
        lines: chance.one_of(&[10, 30, 80, 80, 200, 200, 600]),
        liberal: chance.one_of(&[20, 50, 80]),
        closes: chance.one_of(&[4, 15, 30]),
        nonsense: chance.one_of(&[0, 2, 2, 30]),
    }
}

impl Author<'_> {
    fn lay_out_files(&mut self) {
        for number in 0..BOOKS {
            let book = match self.chance.within(0..=2) {
                0 => good_book(self.chance),
                1 => book_near_the_last_tick(self.chance),
                _ => any_book(self.chance),
            };
            self.lay_out(format!("book{number}"), book);
        }
        for number in 0..STORES {
            let faulty = self.chance.one_of(&[0, 10]);
            let store = match self.chance.within(0..=1) {
                0 => store_with_entries(self.chance, faulty),
                _ => any_store(self.chance),
            };
            self.lay_out(format!("store{number}"), store);
        }
        self.lay_out(NOT_UTF_8, self.case.file(b"book0").to_vec());
    }

    fn lay_out(&mut self, name: impl AsRef<[u8]>, bytes: Vec<u8>) {
        let name = name.as_ref();
        self.keeper.files.files.insert(name.to_vec(), bytes.clone());
        self.case.add_file(Run::Both, name, bytes);
    }

    fn say(&mut self, line: impl AsRef<[u8]>) {
        let line = line.as_ref();
        self.keeper.answer(line);
        self.case.add_line(Run::Both, line);
    }

    fn say_of_file(&mut self, command: &str, name: &[u8]) {
        self.say([command.as_bytes(), b" ", name].concat());
    }

    fn begin(&mut self) {
        if self.chance.percent(25) {
            let group = self.chance.within(0..=17);
            self.say(format!("fresh {group}"));
        }
        if self.chance.percent(35) {
            self.load();
        }
        if self.chance.percent(85) {
            self.take_store();
        }
    }

    fn step(&mut self) {
        if self.chance.percent(self.manner.nonsense) {
            let line = nonsense(self.chance);
            return self.say(line);
        }
        if self.chance.percent(self.manner.closes) {
            return self.say("close");
        }
        match self.chance.within(0..=99) {
            0..=59 => self.request_in_turn(),
            60..=68 => self.request_out_of_turn(),
            69..=83 => self.read(),
            84..=86 => self.models(),
            87..=88 => self.read_all_of_one_model(),
            89..=94 => self.deliver(),
            95..=96 => self.take_store(),
            97 => self.load(),
            98 => self.save(),
            _ => self.rarely(),
        }
    }

    /// A request that is taken unless the carrier had one in this tick.
    fn request_in_turn(&mut self) {
        let (side, list) = match self.chance.percent(50) {
            true => (Side::Model, &self.manner.models),
            false => (Side::Sheet, &self.manner.sheets),
        };
        let number = self.chance.one_of(list);
        let group = &self.keeper.group;
        let of_carrier = |e: &&second::event::Event| e.kind.side() == side && e.number == number;
        let is_in = group.events.iter().rev().find(of_carrier).is_some_and(|e| e.kind.enters());
        let liberal = self.chance.percent(self.manner.liberal);
        let event = event(side, group.closed + 1, is_in, liberal, number);
        if self.chance.percent(70) {
            self.say(format!("{:?} {number}", event.kind));
        } else {
            self.say(format!("request {} {number}", event.kind.number()));
        }
    }

    fn request_out_of_turn(&mut self) {
        let kind = match self.chance.within(0..=9) {
            0 => self.chance.one_of(&[8, 9, 255, 256, u32::MAX]),
            _ => self.chance.within(0..=7),
        };
        let number = match self.chance.within(0..=3) {
            0 => self.chance.one_of(&[63, 64, 255, 256, 511, 512, u32::MAX]),
            1 => self.chance.one_of(&self.manner.models),
            _ => self.chance.one_of(&self.manner.sheets),
        };
        self.say(format!("request {kind} {number}"));
    }

    fn a_model(&mut self) -> u32 {
        match self.chance.percent(4) {
            true => self.chance.one_of(&[0, 63, 64, 255, u32::MAX]),
            false => self.chance.one_of(&self.manner.models),
        }
    }

    /// A model with something to be delivered, when one is found soon.
    fn a_granted_model(&mut self) -> u32 {
        let tries: Vec<u32> = (0..4).map(|_| self.chance.one_of(&self.manner.models)).collect();
        let granted = tries.iter().find(|&&model| !self.keeper.group.sheets_of(model).is_empty());
        *granted.unwrap_or(&tries[0])
    }

    fn a_sheet(&mut self) -> u32 {
        match self.chance.percent(4) {
            true => self.chance.one_of(&[0, 255, 256, u32::MAX]),
            false => self.chance.one_of(&self.manner.sheets),
        }
    }

    fn read(&mut self) {
        let (model, sheet) = (self.a_model(), self.a_sheet());
        self.say(format!("read {model} {sheet}"));
    }

    fn models(&mut self) {
        let sheet = self.a_sheet();
        self.say(format!("models {sheet}"));
    }

    fn read_all_of_one_model(&mut self) {
        let model = self.a_model();
        for sheet in self.manner.sheets.clone() {
            self.say(format!("read {model} {sheet}"));
        }
    }

    /// A delivery with a buffer that is ample, just right, just too short, or anything.
    fn deliver(&mut self) {
        let model = if self.chance.percent(70) { self.a_granted_model() } else { self.a_model() };
        let ample = u64::from(DELIVERY_BUFFER);
        let true_length = deliver(&self.keeper.group, model, &self.keeper.store, ample)
            .map_or(8, |delivery| delivery.len() as u32);
        let buffer = match self.chance.within(0..=9) {
            0..=4 => DELIVERY_BUFFER,
            5..=6 => true_length,
            7 => true_length - 1,
            8 => self.chance.one_of(&[0, 7, 8, 9, DELIVERY_BUFFER + 1, u32::MAX]),
            _ => self.chance.within(0..=100),
        };
        let names: [&[u8]; 8] =
            [b"d0", b"d1", b"d2", b"store0", b"book0", b".", b"none/d", NOT_UTF_8];
        let name = self.chance.one_of(&names);
        self.say_of_file(&format!("deliver {model} {buffer}"), name);
    }

    fn take_store(&mut self) {
        let name = self.a_file("store", STORES);
        self.say_of_file("store", &name);
    }

    fn load(&mut self) {
        let name = self.a_file("book", BOOKS);
        self.say_of_file("load", &name);
    }

    fn save(&mut self) {
        let names: [&[u8]; 7] =
            [b"book0", b"book1", b"saved", b"saved", b".", b"none/b", NOT_UTF_8];
        let name = self.chance.one_of(&names);
        self.say_of_file("save", name);
    }

    /// Mostly one of the files of its kind; sometimes another, or one that can't be opened.
    fn a_file(&mut self, kind: &str, count: u32) -> Vec<u8> {
        let others: [&[u8]; 8] =
            [b"none", b".", b"d0", b"store0", b"book0", b"none/x", b"saved", NOT_UTF_8];
        match self.chance.within(0..=19) {
            0 => self.chance.one_of(&others).to_vec(),
            _ => format!("{kind}{}", self.chance.within(0..=count - 1)).into_bytes(),
        }
    }

    fn rarely(&mut self) {
        match self.chance.within(0..=3) {
            0 => self.say("help"),
            1 => self.say(""),
            2 => self.say("fresh 5"),
            _ => (0..12).for_each(|_| self.say("close")),
        }
    }

    /// The last words: everything that can still be asked about the group.
    fn end(&mut self) {
        if self.manner.models.len() * self.manner.sheets.len() <= 64 {
            for model in self.manner.models.clone() {
                for sheet in self.manner.sheets.clone() {
                    self.say(format!("read {model} {sheet}"));
                }
            }
        }
        self.deliver();
        self.say("save last");
        self.say("load last");
        self.read_all_of_one_model();
        self.case.open_end = self.chance.percent(20);
    }
}

/// Lines that aren't commands, and some that only just are.
#[rustfmt::skip]
const LINES: [&str; 46] = [
    "", " ", "   ", "close ", " close", "close now", "closed", "CLOSE", "close\r", "\tclose",
    "close\t", "sj 1", "SJ", "SJ 1 2", "SJ x", "SJ -1", "SJ +1", "SJ 1.0", "SJ 0x1", "SJ 1e1",
    "SJ 4294967295", "SJ 4294967296", "SJ 99999999999999999999", "SJ 18446744073709551616",
    "LJ 00000000000000000000000000000000000000001", "LA 000", "SJ  1", "request 1", "request",
    "request 1 2 3", "request x 1", "request 4294967296 1", "read 1", "read 1 2 3", "read a b",
    "models", "models -0", "fresh", "fresh 1 2", "fresh x", "deliver 1 100", "deliver 1 x d0",
    "deliver 1 1114113 d0", "deliver x 1114113 d0", "load", "save a b",
];

/// A line that isn't a command, or only just is.
fn nonsense(chance: &mut Chance) -> Vec<u8> {
    match chance.within(0..=9) {
        0..=5 => chance.one_of(&LINES).into(),
        6 => vec![chance.one_of(b" x1"); chance.one_of(&[200, 254, 255, 256, 257, 600, 70_000])],
        7 => {
            let name = "n".repeat(chance.one_of(&[199, 200, 201, 240]));
            format!("{} {name}", chance.one_of(&["load", "store", "save", "deliver 1 8"])).into()
        }
        8 => {
            let count = chance.within(1..=30) as usize;
            let mut bytes = chance.bytes(count);
            bytes.retain(|&byte| byte != b'\n');
            bytes
        }
        _ => match chance.within(0..=3) {
            0 => b"load \xff\xfe".to_vec(),
            1 => b"load a\0b".to_vec(),
            2 => format!("{:>255}", "close").into(),
            _ => format!("{:>256}", "close").into(),
        },
    }
}

/// More accepted events than a book holds: the save is refused, or only just not.
pub fn script_beyond_a_book(chance: &mut Chance) -> Case {
    let mut case = Case::new(Trial::Keeper);
    let models = MODELS - chance.within(0..=1);
    let ticks = 4_096 / models + chance.within(0..=1);
    for tick in 0..ticks {
        for model in 0..models {
            let liberal = chance.percent(50);
            let event = event(Side::Model, tick, tick % 2 == 1, liberal, model);
            case.add_line(Run::Both, format!("{:?} {model}", event.kind).as_bytes());
        }
        case.add_line(Run::Both, b"close");
    }
    for line in ["save full", "load full", "models 0", "SA 0", "close", "save full", "load full"] {
        case.add_line(Run::Both, line.as_bytes());
    }
    case.add_line(Run::Both, &[b"save ", NOT_UTF_8].concat());
    let sheet = chance.within(0..=SHEETS - 1);
    case.add_line(Run::Both, format!("models {sheet}").as_bytes());
    case
}
