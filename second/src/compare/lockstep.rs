//! A person at a terminal: the next line is typed only after the answer was seen. A keeper
//! that keeps answers back is found here.

use crate::case::{escape, Case, Run};
use crate::differ::expected_of_keeper;
use std::io::{self, BufRead, BufReader, Write};
use std::path::Path;
use std::process::{ChildStdin, Command, Stdio};
use std::sync::mpsc::{self, Receiver};
use std::thread;
use std::time::Duration;

const LONGEST_WAIT: Duration = Duration::from_secs(10);

struct Terminal {
    to_keeper: ChildStdin,
    answers: Receiver<Vec<u8>>,
}

/// Types the lines of a case that needs no files one by one; how the keeper differs.
pub fn lockstep(case: &Case, keeper: &Path) -> io::Result<Option<String>> {
    let expected = expected_of_keeper(case, Run::Left);
    let mut child = Command::new(keeper).stdin(Stdio::piped()).stdout(Stdio::piped()).spawn()?;
    let from_keeper = BufReader::new(child.stdout.take().expect("standard output is a pipe"));
    let (sender, answers) = mpsc::channel();
    thread::spawn(move || {
        from_keeper.split(b'\n').map_while(Result::ok).all(|line| sender.send(line).is_ok())
    });
    let to_keeper = child.stdin.take().expect("standard input is a pipe");
    let mut terminal = Terminal { to_keeper, answers };
    let mut asked = case.lines_of(Run::Left).zip(&expected.answers);
    let different = asked.find_map(|(line, answer)| terminal.ask(&line.text, answer));
    drop(terminal);
    child.kill().ok();
    child.wait()?;
    Ok(different)
}

impl Terminal {
    /// Types one line and waits for its answer lines; how they differ.
    fn ask(&mut self, line: &[u8], answer: &[u8]) -> Option<String> {
        if self.to_keeper.write_all(&[line, b"\n"].concat()).is_err() {
            return Some(format!("the keeper ended before `{}`", escape(line)));
        }
        let mut wanted = answer.split(|&byte| byte == b'\n').take(line_count(answer));
        wanted.find_map(|wanted| {
            let got = self.answers.recv_timeout(LONGEST_WAIT).ok();
            (got.as_deref() != Some(wanted)).then(|| {
                let got = got.map_or("nothing".to_string(), |got| format!("`{}`", escape(&got)));
                format!("`{}` gets {got} at once, not `{}`", escape(line), escape(wanted))
            })
        })
    }
}

fn line_count(answer: &[u8]) -> usize {
    answer.iter().filter(|&&byte| byte == b'\n').count()
}
