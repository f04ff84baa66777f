//! Runs the gate's `listing`, `keeper` and `spans` in a folder of their own.

use crate::case::Folder;
use std::ffi::OsStr;
use std::fs::{self, File};
use std::io::{self, Read, Seek, Write};
use std::os::unix::ffi::OsStrExt;
use std::os::unix::process::ExitStatusExt;
use std::path::{Path, PathBuf};
use std::process::{Child, Command, ExitStatus, Stdio};
use std::sync::{Arc, Mutex};
use std::thread;
use std::time::{Duration, Instant};

/// A program that takes longer on one case hangs.
const LONGEST_RUN: Duration = Duration::from_secs(120);
/// The exit status of a Rust program that panicked.
const PANICKED: i32 = 101;

/// What a program printed, the files it left, and how it ended when it ended badly.
#[derive(Clone, Debug, PartialEq, Eq)]
pub struct Outcome {
    pub output: Vec<u8>,
    pub files: Folder,
    pub trouble: Option<String>,
}

pub struct Programs {
    pub listing: Option<PathBuf>,
    pub keeper: Option<PathBuf>,
    pub spans: Option<PathBuf>,
    folder: PathBuf,
    watch: Watch,
}

impl Programs {
    pub fn new([listing, keeper, spans]: [Option<PathBuf>; 3]) -> io::Result<Programs> {
        let folder = std::env::temp_dir().join(format!("compare-{}", std::process::id()));
        fs::create_dir_all(&folder)?;
        Ok(Programs { listing, keeper, spans, folder, watch: Watch::start() })
    }

    pub fn run_listing(&self, book: &[u8]) -> io::Result<Outcome> {
        let program = self.listing.as_ref().ok_or_else(|| missing("--listing"))?;
        self.run(Command::new(program).current_dir(&self.folder), book)
    }

    /// Without arguments.
    pub fn run_spans(&self, book: &[u8]) -> io::Result<Outcome> {
        let program = self.spans.as_ref().ok_or_else(|| missing("--spans"))?;
        self.run(Command::new(program).current_dir(&self.folder), book)
    }

    /// With arguments, and with the book in a file, as people have it: so that it can be seen
    /// whether any of it was read.
    pub fn run_spans_with(&self, arguments: &[&[u8]], book: &[u8]) -> io::Result<(Outcome, bool)> {
        let program = self.spans.as_ref().ok_or_else(|| missing("--spans"))?;
        let path = self.folder.join("book");
        fs::write(&path, book)?;
        let mut file = File::open(&path)?;
        let mut command = Command::new(program);
        command.current_dir(&self.folder).stdin(file.try_clone()?);
        command.args(arguments.iter().map(|argument| OsStr::from_bytes(argument)));
        let outcome = self.run_on(&mut command, &[])?;
        Ok((outcome, file.stream_position()? > 0))
    }

    pub fn run_keeper(&self, input: &[u8], files: &Folder) -> io::Result<Outcome> {
        let program = self.keeper.as_ref().ok_or_else(|| missing("--keeper"))?;
        let folder = self.folder.join("case");
        fs::create_dir_all(&folder)?;
        for (name, bytes) in files {
            fs::write(folder.join(as_path(name)), bytes)?;
        }
        let outcome = self.run(Command::new(program).current_dir(&folder), input)?;
        let files = read_folder(&folder)?;
        fs::remove_dir_all(&folder)?;
        Ok(Outcome { files, ..outcome })
    }

    /// With the input through a pipe.
    fn run(&self, command: &mut Command, input: &[u8]) -> io::Result<Outcome> {
        self.run_on(command.stdin(Stdio::piped()), input)
    }

    /// With the input through a pipe, where standard input is one.
    fn run_on(&self, command: &mut Command, input: &[u8]) -> io::Result<Outcome> {
        let started = command.stdout(Stdio::piped()).stderr(Stdio::null()).spawn();
        let mut child = started.map_err(|error| {
            let program = command.get_program().to_string_lossy();
            io::Error::new(error.kind(), format!("{program}: {error}"))
        })?;
        let to_child = child.stdin.take();
        let mut from_child = child.stdout.take().expect("standard output is a pipe");
        self.watch.put(child);
        let mut output = Vec::new();
        thread::scope(|scope| {
            // A program may end before it has read everything; that isn't a difference.
            scope.spawn(move || to_child.map(|mut to_child| to_child.write_all(input).ok()));
            from_child.read_to_end(&mut output)
        })?;
        let (status, hung) = self.watch.take()?;
        Ok(Outcome { output, files: Folder::new(), trouble: trouble(status, hung) })
    }
}

impl Drop for Programs {
    fn drop(&mut self) {
        // A folder that stays behind does no harm.
        fs::remove_dir_all(&self.folder).ok();
    }
}

fn missing(option: &str) -> io::Error {
    io::Error::new(io::ErrorKind::NotFound, format!("this needs {option} PATH"))
}

fn as_path(name: &[u8]) -> &Path {
    Path::new(OsStr::from_bytes(name))
}

fn read_folder(folder: &Path) -> io::Result<Folder> {
    let mut files = Folder::new();
    for entry in fs::read_dir(folder)? {
        let entry = entry?;
        files.insert(entry.file_name().as_bytes().to_vec(), fs::read(entry.path())?);
    }
    Ok(files)
}

fn trouble(status: ExitStatus, hung: bool) -> Option<String> {
    if hung {
        return Some(format!("still running after {} s", LONGEST_RUN.as_secs()));
    }
    if let Some(signal) = status.signal() {
        return Some(format!("ended by signal {signal}"));
    }
    (status.code() == Some(PANICKED)).then(|| "panicked".to_string())
}

/// Ends the program of the day when it hangs.
struct Watch {
    watched: Arc<Mutex<Option<Watched>>>,
}

struct Watched {
    child: Child,
    start: Instant,
    hung: bool,
}

impl Watch {
    fn start() -> Watch {
        let watched: Arc<Mutex<Option<Watched>>> = Arc::default();
        let weak = Arc::downgrade(&watched);
        thread::spawn(move || {
            while let Some(watched) = weak.upgrade() {
                if let Some(watched) = watched.lock().expect("no holder panics").as_mut() {
                    if watched.start.elapsed() > LONGEST_RUN {
                        watched.hung = true;
                        watched.child.kill().ok();
                    }
                }
                drop(watched);
                thread::sleep(Duration::from_millis(500));
            }
        });
        Watch { watched }
    }

    fn put(&self, child: Child) {
        let watched = Watched { child, start: Instant::now(), hung: false };
        *self.watched.lock().expect("no holder panics") = Some(watched);
    }

    /// Waits for the end. A program that closed its output and doesn't end is ended, too.
    fn take(&self) -> io::Result<(ExitStatus, bool)> {
        loop {
            let mut watched = self.watched.lock().expect("no holder panics");
            let current = watched.as_mut().expect("a program is running");
            if let Some(status) = current.child.try_wait()? {
                let hung = current.hung;
                *watched = None;
                return Ok((status, hung));
            }
            drop(watched);
            thread::sleep(Duration::from_micros(50));
        }
    }
}
