//! `keeper`: the console of the person who keeps a group.

use second::files::Disk;
use second::keeper::{run, Keeper, HELP};
use second::wrong::reading_from_environment;
use std::io;
use std::process::ExitCode;

fn main() -> ExitCode {
    match std::env::args().nth(1).as_deref() {
        None => {}
        Some("--help") => {
            print!(
                "keeper: one command a line on standard input, one answer a line back.\n\n{HELP}"
            );
            return ExitCode::SUCCESS;
        }
        Some(other) => {
            eprintln!("keeper: {other} is not known; keeper --help says more");
            return ExitCode::from(2);
        }
    }
    let reading = match reading_from_environment() {
        Ok(reading) => reading,
        Err(reason) => {
            eprintln!("keeper: {reason}");
            return ExitCode::from(2);
        }
    };
    match run(&mut Keeper::new(Disk, reading), io::stdin().lock(), io::stdout().lock()) {
        Ok(()) => ExitCode::SUCCESS,
        Err(error) => {
            eprintln!("keeper: {error}");
            ExitCode::from(2)
        }
    }
}
