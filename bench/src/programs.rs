//! The rows that are whole programs: from the start of a process to its end, standard input from a file.
//! Before a row is timed, all its programs are seen to print the same bytes.

use crate::dice::Dice;
use crate::measure::{measure, Side, Timing};
use crate::work;
use crate::Setting;
use plain::event::{kind, number, tick, EVENTS};
use std::fmt::Write;
use std::fs::{self, File};
use std::path::{Path, PathBuf};
use std::process::{Command, Stdio};

const COMMANDS: usize = 1_000_000;

/// A program with its arguments and the file that it reads.
struct Program {
    name: &'static str,
    path: PathBuf,
    argument: Option<PathBuf>,
    input: PathBuf,
}

impl Program {
    fn new(name: &'static str, path: PathBuf, input: &Path) -> Self {
        Program { name, path, argument: None, input: input.into() }
    }

    fn on(self, argument: impl Into<PathBuf>) -> Self {
        Program { argument: Some(argument.into()), ..self }
    }

    fn command(&self) -> Command {
        let mut command = Command::new(&self.path);
        command.args(&self.argument).stdin(File::open(&self.input).expect("the input's file"));
        command
    }

    fn prints(&self) -> Vec<u8> {
        let output = self.command().output().unwrap_or_else(|e| panic!("{:?}: {e}", self.path));
        assert!(output.status.success(), "{:?} failed", self.path);
        output.stdout
    }

    fn runs(&self) {
        let status = self.command().stdout(Stdio::null()).status().expect("it ran before");
        assert!(status.success(), "{:?} failed", self.path);
    }
}

fn timed(rounds: usize, programs: &[Program]) -> Vec<Timing> {
    timed_beside(rounds, programs, &[])
}

/// The others do another work and print what they like.
fn timed_beside(rounds: usize, programs: &[Program], others: &[Program]) -> Vec<Timing> {
    let first = programs[0].prints();
    for other in &programs[1..] {
        assert!(other.prints() == first, "{} prints something else", other.name);
    }
    let mut sides: Vec<Side> = programs
        .iter()
        .chain(others)
        .map(|program| Side { name: program.name, work: Box::new(|| program.runs()) })
        .collect();
    measure(rounds, &mut sides)
}

fn pair(setting: &Setting, program: &str, input: &Path) -> Vec<Program> {
    vec![
        Program::new("gate", setting.gate.join(program), input),
        Program::new("plain Rust", setting.plain.join(format!("plain-{program}")), input),
    ]
}

/// An empty book is refused at once: what is left is the start and the end of a process.
pub fn start(setting: &Setting) -> Vec<Timing> {
    timed(setting.rounds, &pair(setting, "listing", Path::new("/dev/null")))
}

/// A full book, and the file that has it.
fn full_book(setting: &Setting) -> (Vec<u8>, PathBuf) {
    let input = setting.folder.join("full.book");
    let book = work::book(&mut Dice(EVENTS as u64), EVENTS);
    fs::write(&input, &book).expect("a file in the folder");
    (book, input)
}

pub fn listing(setting: &Setting) -> Vec<Timing> {
    let (book, input) = full_book(setting);
    let mut programs = pair(setting, "listing", &input);
    let replay =
        Program::new("plain Rust, one replay", setting.plain.join("plain-listing"), &input);
    programs.push(replay.on("--replay"));
    if sqlite(&mut programs, &setting.folder, &book).is_none() {
        eprintln!(
            "bench: sqlite3 isn't installed (Debian: apt-get install sqlite3) and is left out"
        );
    }
    timed(setting.rounds, &programs)
}

/// SQLite from the words to the listing, and the query alone on a database that holds them.
fn sqlite(programs: &mut Vec<Program>, folder: &Path, book: &[u8]) -> Option<()> {
    Command::new("sqlite3").arg("--version").output().ok()?;
    let load = load(book);
    let query = include_str!("../listing.sql");
    let [both, alone, database] =
        ["both.sql", "alone.sql", "full.db"].map(|name| folder.join(name));
    fs::write(&both, &load).ok()?;
    let _ = fs::remove_file(&database);
    Program::new("", "sqlite3".into(), &both).on(&database).prints();
    fs::write(&both, load + query).ok()?;
    fs::write(&alone, query).ok()?;
    programs.push(
        Program::new("SQLite, the words loaded first", "sqlite3".into(), &both).on(":memory:"),
    );
    programs.push(Program::new("SQLite, the query alone", "sqlite3".into(), &alone).on(&database));
    Some(())
}

/// SQL that puts a book into tables.
fn load(book: &[u8]) -> String {
    let word = |at| plain::book::word_at(book, at);
    let mut sql = format!(
        "BEGIN;\nCREATE TABLE book(number, ticks, records);\nINSERT INTO book VALUES({}, {}, {});\n\
         CREATE TABLE event(tick INTEGER, kind INTEGER, number INTEGER);\n",
        word(16),
        word(4),
        word(8),
    );
    for at in (20..book.len()).step_by(4) {
        let (tick, kind, number) = (tick(word(at)), kind(word(at)), number(word(at)));
        writeln!(sql, "INSERT INTO event VALUES({tick}, {kind}, {number});").expect("memory");
    }
    sql + "CREATE INDEX by_kind ON event(kind, tick, number);\nCOMMIT;\n"
}

/// Beside the gate's listing of the same book, which goes through the same pairs.
pub fn spans(setting: &Setting) -> Vec<Timing> {
    let (_, input) = full_book(setting);
    let listing = Program::new("the gate's listing program", setting.gate.join("listing"), &input);
    timed_beside(setting.rounds, &pair(setting, "spans", &input), &[listing])
}

pub fn keeper(setting: &Setting) -> Vec<Timing> {
    let input = setting.folder.join("commands");
    fs::write(&input, work::commands(&mut Dice(7), COMMANDS)).expect("a file in the folder");
    timed(setting.rounds, &pair(setting, "keeper", &input))
}
