//! A case: what is fed to a program, with the files beside it. It can be written to one
//! text file, read back and run again.

use std::collections::BTreeMap;
use std::fmt::Write;

pub type Folder = BTreeMap<Vec<u8>, Vec<u8>>;

/// What a case is fed to, and what its answers are compared with.
#[derive(Clone, Copy, Debug, PartialEq, Eq)]
pub enum Trial {
    /// A run of calls on the C library, a call a line.
    Library,
    /// The file `book` through `listing`, and through `spans` without arguments and with the
    /// lines as its arguments.
    Book,
    /// A script through `keeper`, compared with the second program.
    Keeper,
    /// Two scripts through `keeper`: the model's answers compared with each other.
    Pair,
}

/// Which of a pair's two runs a line or a file is in. Other cases have one run, the left.
#[derive(Clone, Copy, Debug, PartialEq, Eq)]
pub enum Run {
    Both,
    Left,
    Right,
    /// In both, and the answer is the model's.
    Model,
}

const TRIALS: [(&str, Trial); 4] = [
    ("library", Trial::Library),
    ("book", Trial::Book),
    ("keeper", Trial::Keeper),
    ("pair", Trial::Pair),
];

const RUNS: [(&str, Run); 4] =
    [("both", Run::Both), ("left", Run::Left), ("right", Run::Right), ("model", Run::Model)];

#[derive(Clone, Debug)]
pub struct Line {
    pub run: Run,
    pub text: Vec<u8>,
}

#[derive(Clone, Debug)]
pub struct CaseFile {
    pub run: Run,
    pub name: Vec<u8>,
    pub bytes: Vec<u8>,
}

#[derive(Clone, Debug)]
pub struct Case {
    pub trial: Trial,
    /// The last line has no line end.
    pub open_end: bool,
    pub files: Vec<CaseFile>,
    pub lines: Vec<Line>,
}

impl Case {
    pub fn new(trial: Trial) -> Case {
        Case { trial, open_end: false, files: Vec::new(), lines: Vec::new() }
    }

    pub fn book(book: Vec<u8>, arguments: &[Vec<u8>]) -> Case {
        let mut case = Case::new(Trial::Book);
        case.add_file(Run::Both, b"book", book);
        arguments.iter().for_each(|argument| case.add_line(Run::Both, argument));
        case
    }

    fn strips(model: Vec<u8>, sheet: Vec<u8>) -> Case {
        let mut case = Case::new(Trial::Library);
        case.add_file(Run::Both, b"model0", model);
        case.add_file(Run::Both, b"sheet0", sheet);
        case
    }

    pub fn judge(model: Vec<u8>, sheet: Vec<u8>, now: u32) -> Case {
        let mut case = Case::strips(model, sheet);
        case.add_line(Run::Both, format!("judge 0 {now}").as_bytes());
        case
    }

    /// A call for each list, with so much more room than is needed.
    pub fn spans(model: Vec<u8>, sheet: Vec<u8>, now: u32, more: &[i64]) -> Case {
        let mut case = Case::strips(model, sheet);
        for more in more {
            case.add_line(Run::Both, format!("spans 0 {now} {more:+}").as_bytes());
        }
        case
    }

    pub fn add_file(&mut self, run: Run, name: &[u8], bytes: Vec<u8>) {
        self.files.push(CaseFile { run, name: name.to_vec(), bytes });
    }

    pub fn add_line(&mut self, run: Run, text: &[u8]) {
        self.lines.push(Line { run, text: text.to_vec() });
    }

    pub fn lines_of(&self, run: Run) -> impl Iterator<Item = &Line> {
        self.lines.iter().filter(move |line| line.run.is_in(run))
    }

    /// The keeper's standard input.
    pub fn input(&self, run: Run) -> Vec<u8> {
        let mut input = Vec::new();
        for line in self.lines_of(run) {
            input.extend(&line.text);
            input.push(b'\n');
        }
        if self.open_end {
            input.pop();
        }
        input
    }

    pub fn folder(&self, run: Run) -> Folder {
        let files = self.files.iter().filter(|file| file.run.is_in(run));
        files.map(|file| (file.name.clone(), file.bytes.clone())).collect()
    }

    /// The arguments of `spans`.
    pub fn arguments(&self) -> Vec<&[u8]> {
        self.lines_of(Run::Left).map(|line| line.text.as_slice()).collect()
    }

    /// The bytes of a file, empty when it isn't there.
    pub fn file(&self, name: &[u8]) -> &[u8] {
        self.files.iter().find(|file| file.name == name).map_or(&[], |file| &file.bytes)
    }

    pub fn size(&self) -> usize {
        self.lines.len() + self.files.iter().map(|file| file.bytes.len()).sum::<usize>()
    }

    pub fn to_text(&self) -> String {
        let mut text = format!("trial {}\n", name_of(&TRIALS, self.trial));
        if self.open_end {
            text += "open end\n";
        }
        for file in &self.files {
            let hex = file.bytes.iter().fold(String::new(), |mut hex, byte| {
                write!(hex, "{byte:02x}").expect("a string takes every byte");
                hex
            });
            text += &format!("file {} {} {hex}\n", name_of(&RUNS, file.run), escape(&file.name));
        }
        for line in &self.lines {
            text += &format!("line {} {}\n", name_of(&RUNS, line.run), escape(&line.text));
        }
        text
    }

    pub fn from_text(text: &str) -> Result<Case, String> {
        let mut case = Case::new(Trial::Keeper);
        for (place, line) in text.lines().enumerate() {
            let trouble = |what: &str| format!("line {} of the case: {what}", place + 1);
            if line.is_empty() || line.starts_with('#') {
                continue;
            }
            case.take_text_line(line).map_err(trouble)?;
        }
        Ok(case)
    }

    fn take_text_line(&mut self, line: &str) -> Result<(), &'static str> {
        let mut words = line.splitn(3, ' ');
        let (head, second) = (words.next().unwrap_or(""), words.next().unwrap_or(""));
        let rest = words.next().unwrap_or("");
        match head {
            "trial" => self.trial = named(&TRIALS, second).ok_or("no such trial")?,
            "open" => self.open_end = true,
            "line" => {
                let run = named(&RUNS, second).ok_or("no such run")?;
                self.lines.push(Line { run, text: unescape(rest)? });
            }
            "file" => {
                let run = named(&RUNS, second).ok_or("no such run")?;
                let (name, hex) = rest.split_once(' ').unwrap_or((rest, ""));
                self.add_file(run, &unescape(name)?, from_hex(hex)?);
            }
            _ => return Err("neither trial, open, file nor line"),
        }
        Ok(())
    }
}

impl Run {
    /// A line or file of this run is in the left (or the right) of a pair.
    pub fn is_in(self, side: Run) -> bool {
        matches!(self, Run::Both | Run::Model) || self == side
    }
}

fn name_of<T: PartialEq + Copy>(table: &[(&'static str, T)], value: T) -> &'static str {
    table.iter().find(|(_, v)| *v == value).map_or("?", |(name, _)| name)
}

fn named<T: Copy>(table: &[(&str, T)], name: &str) -> Option<T> {
    table.iter().find(|(n, _)| *n == name).map(|(_, value)| *value)
}

/// Printable bytes as they are; the others, the backslash and a space at the end as \xNN.
pub fn escape(bytes: &[u8]) -> String {
    let mut text = String::new();
    for (place, &byte) in bytes.iter().enumerate() {
        let last = place + 1 == bytes.len();
        match byte {
            b'!'..=b'~' if byte != b'\\' => text.push(byte as char),
            b' ' if !last => text.push(' '),
            _ => text += &format!("\\x{byte:02x}"),
        }
    }
    text
}

fn unescape(text: &str) -> Result<Vec<u8>, &'static str> {
    let mut bytes = Vec::new();
    let mut rest = text.as_bytes();
    while let Some((&byte, after)) = rest.split_first() {
        if byte != b'\\' {
            bytes.push(byte);
            rest = after;
            continue;
        }
        let digits = after.get(1..3).ok_or("a cut \\xNN")?;
        let digits = std::str::from_utf8(digits).map_err(|_| "a bad \\xNN")?;
        bytes.extend(from_hex(digits)?);
        rest = &after[3..];
    }
    Ok(bytes)
}

fn from_hex(hex: &str) -> Result<Vec<u8>, &'static str> {
    let pairs = hex.as_bytes().chunks(2);
    let byte = |pair: &[u8]| {
        let digits = std::str::from_utf8(pair).ok()?;
        u8::from_str_radix(digits, 16).ok()
    };
    pairs.map(|pair| byte(pair).ok_or("bad hexadecimal digits")).collect()
}
