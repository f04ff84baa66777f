//! What the gate's programs reach when they call C: standard input and output and one folder, all in
//! memory, so that no input can reach a file of the machine. The gate's object has these in the
//! place of read, write, open and close, and of the kit's calls for arguments and errors.

use crate::common::differs;
use std::cell::RefCell;
use std::collections::BTreeMap;

pub type Folder = BTreeMap<Vec<u8>, Vec<u8>>;

/// A file of this name opens and can't be written to, as on a full disk; it can't be opened for reading.
pub const FULL: u8 = b'!';
/// A file of this name opens and can't be read, as on a broken disk.
pub const BROKEN: u8 = b'~';

const FIRST_FILE: i32 = 3;

// Linux's numbers.
const READS: i32 = 0;
const READS_OR_WRITES: i32 = 3;
const NO_SUCH_FILE: i32 = 2;
const BROKEN_DISK: i32 = 5;
const FULL_DISK: i32 = 28;

struct Open {
    name: Vec<u8>,
    at: usize,
}

/// What the second program says, and how long it was after each line: every answer is written before
/// more input is asked for.
#[derive(Default)]
pub struct Expected {
    pub output: Vec<u8>,
    pub marks: Vec<usize>,
}

impl Expected {
    /// Is this the output up to a mark? If not, what differs is shown from its line on.
    pub fn compare(&self, what: &str, output: &[u8], mark: usize) {
        let expected = &self.output[..mark];
        if output != expected {
            let same = output.iter().zip(expected).take_while(|(a, b)| a == b).count();
            let line =
                output[..same].iter().rposition(|&byte| byte == b'\n').map_or(0, |at| at + 1);
            differs(what, &output[line..], &expected[line..]);
        }
    }
}

pub struct Console {
    input: Vec<u8>,
    /// How much of the input was handed over.
    pub at: usize,
    /// Line ends among what was handed over.
    lines: usize,
    /// 0: every call moves all it can; else few bytes, as a pipe may.
    step: u8,
    calls: usize,
    pub output: Vec<u8>,
    pub folder: Folder,
    open: BTreeMap<i32, Open>,
    pub expected: Option<Expected>,
    /// Without the program's own name.
    arguments: Vec<Vec<u8>>,
    error: i32,
}

impl Console {
    pub fn new(
        input: &[u8],
        step: u8,
        folder: Folder,
        expected: Option<Expected>,
        arguments: &[Vec<u8>],
    ) -> Console {
        Console {
            input: input.to_vec(),
            at: 0,
            lines: 0,
            step,
            calls: 0,
            output: Vec::new(),
            folder,
            open: BTreeMap::new(),
            expected,
            arguments: arguments.to_vec(),
            error: 0,
        }
    }

    fn empty() -> Console {
        Console::new(&[], 0, Folder::new(), None, &[])
    }

    /// How many bytes a call moves.
    fn moved(&mut self, wanted: usize) -> usize {
        if self.step == 0 || wanted < 2 {
            return wanted;
        }
        self.calls += 1;
        let few = 1 + self.calls * 7 % (usize::from(self.step) * 3);
        few.max(wanted / 64).min(wanted)
    }

    fn check_answers(&self) {
        let Some(expected) = &self.expected else { return };
        let mark = if self.lines == 0 { 0 } else { expected.marks[self.lines - 1] };
        if self.output.len() != mark {
            expected.compare(&format!("the answers to {} lines", self.lines), &self.output, mark);
        }
    }

    fn read(&mut self, fd: i32, most: usize) -> Option<Vec<u8>> {
        if fd == 0 {
            self.check_answers();
            let length = self.moved(most.min(self.input.len() - self.at));
            let part = self.input[self.at..self.at + length].to_vec();
            self.at += length;
            self.lines += part.iter().filter(|&&byte| byte == b'\n').count();
            return Some(part);
        }
        let open = self.open.get(&fd).expect("a read of a file that isn't open");
        let (name, at) = (open.name.clone(), open.at);
        if is_folder(&name) {
            return None;
        }
        if name[0] == BROKEN {
            return (most == 0).then(Vec::new);
        }
        let left = self.folder[&name].len() - at;
        let length = self.moved(most.min(left));
        self.open.get_mut(&fd).expect("open").at += length;
        Some(self.folder[&name][at..at + length].to_vec())
    }

    fn write(&mut self, fd: i32, bytes: &[u8]) -> isize {
        let length = self.moved(bytes.len());
        if fd == 1 {
            self.output.extend(&bytes[..length]);
            return length as isize;
        }
        let open = self.open.get(&fd).expect("a write to a file that isn't open");
        if open.name[0] == FULL {
            return -1;
        }
        self.folder.get_mut(&open.name).expect("it was made").extend(&bytes[..length]);
        length as isize
    }

    fn opens_to_read(&self, name: &[u8]) -> bool {
        match name[0] {
            FULL => false,
            BROKEN => true,
            _ => is_folder(name) || self.folder.contains_key(name),
        }
    }

    fn open(&mut self, name: &[u8], writes: bool) -> i32 {
        if name.is_empty() || name.contains(&b'/') || (writes && is_folder(name)) {
            return -1;
        }
        if writes {
            self.folder.insert(name.to_vec(), Vec::new());
        } else if !self.opens_to_read(name) {
            return -1;
        }
        let fd = (FIRST_FILE..).find(|fd| !self.open.contains_key(fd)).expect("a free number");
        self.open.insert(fd, Open { name: name.to_vec(), at: 0 });
        fd
    }
}

fn is_folder(name: &[u8]) -> bool {
    name == b"." || name == b".."
}

thread_local! {
    static CONSOLE: RefCell<Console> = RefCell::new(Console::empty());
}

/// Runs a program on a console, and hands the console back as the program left it.
pub fn run(console: Console, program: impl FnOnce() -> i32) -> Console {
    CONSOLE.with(|own| *own.borrow_mut() = console);
    let status = program();
    let console = CONSOLE.with(|own| own.replace(Console::empty()));
    assert_eq!(status, 0, "the exit status");
    assert!(console.open.is_empty(), "a file was left open");
    console
}

fn with<T>(call: impl FnOnce(&mut Console) -> T) -> T {
    CONSOLE.with(|own| call(&mut own.borrow_mut()))
}

/// # Safety
/// As C's read.
#[no_mangle]
pub unsafe extern "C" fn gate_read(fd: i32, buffer: *mut u8, most: usize) -> isize {
    match with(|console| console.read(fd, most)) {
        None => failed(BROKEN_DISK),
        Some(bytes) => {
            std::ptr::copy_nonoverlapping(bytes.as_ptr(), buffer, bytes.len());
            bytes.len() as isize
        }
    }
}

/// # Safety
/// As C's write.
#[no_mangle]
pub unsafe extern "C" fn gate_write(fd: i32, bytes: *const u8, length: usize) -> isize {
    let bytes = crate::common::lent(bytes, length);
    match with(|console| console.write(fd, bytes)) {
        -1 => failed(FULL_DISK),
        written => written,
    }
}

/// What a call answers that fails, and why.
fn failed(why: i32) -> isize {
    rattle_set_errno(why);
    -1
}

#[no_mangle]
pub extern "C" fn gate_close(fd: i32) -> i32 {
    with(|console| console.open.remove(&fd)).expect("a close of a file that isn't open");
    0
}

/// # Safety
/// The path ends with a zero byte.
#[no_mangle]
pub unsafe extern "C" fn gate_open(path: *const i8, how: i32, _mode: u32) -> i32 {
    let name = std::ffi::CStr::from_ptr(path.cast()).to_bytes();
    match with(|console| console.open(name, how & READS_OR_WRITES != READS)) {
        -1 => failed(NO_SUCH_FILE) as i32,
        fd => fd,
    }
}

#[no_mangle]
pub extern "C" fn rattle_set_errno(error: i32) {
    with(|console| console.error = error);
}

#[no_mangle]
pub extern "C" fn rattle_errno() -> i32 {
    with(|console| console.error)
}

/// An argument's length, with the argument at the start of the buffer; -1 where there is none; -2 where
/// it doesn't fit, and then the buffer is full.
///
/// # Safety
/// The buffer is lent.
#[no_mangle]
pub unsafe extern "C" fn rattle_arg(place: usize, buffer: *mut u8, room: usize) -> isize {
    let argument = with(|console| match place.checked_sub(1) {
        None => Some(b"program".to_vec()),
        Some(place) => console.arguments.get(place).cloned(),
    });
    let Some(argument) = argument else { return -1 };
    std::ptr::copy_nonoverlapping(argument.as_ptr(), buffer, argument.len().min(room));
    if argument.len() > room {
        return -2;
    }
    argument.len() as isize
}
