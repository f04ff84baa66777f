//! `compare`: feeds the gate and the second program the same input and wants equal answers.

mod agreement;
mod arguments;
mod books;
mod case;
mod chance;
mod demand3;
mod differ;
mod exhaustive;
mod gate;
mod judging;
mod library;
mod lockstep;
mod long;
mod programs;
mod progress;
mod report;
mod scripts;
mod shrink;
mod spanning;
mod stores;
mod tally;

#[cfg(test)]
mod tests;

use case::Case;
use chance::{fresh_seed, Chance};
use differ::{difference, pair_is_sound, Difference};
use library::author;
use library::met::Met;
use programs::Programs;
use progress::Progress;
use std::fs;
use std::io;
use std::path::PathBuf;
use std::process::ExitCode;

const HELP: &str = "\
compare exhaustive                every history of one model and one sheet up to 6 ticks
compare random  [SEED [COUNT]]    random and damaged books and stores, keeper scripts
compare demand3 [SEED [COUNT]]    pairs of scripts that look the same to one model
compare library [SEED [COUNT]]    random runs of calls on the whole C library
compare judge   [SEED [COUNT]]    random strips through the C library's judge
compare spans   [SEED [COUNT]]    random strips through the C library's spans, with lists of
                                  every short length
compare lockstep [SEED [COUNT]]   keeper scripts typed line by line, each answer awaited
compare long    [SEED]            one keeper script that closes all 1,000,000 ticks
compare tally   [SEED [COUNT]]    which answers the random cases reach; none may be missing
compare replay FILE               a case that was written down, again
compare --help                    these lines

--listing PATH   the gate's listing       --keeper PATH   the gate's keeper
--spans PATH     the gate's spans         --out FOLDER    where failing cases go (failures)
--from CASE      the number of the first case (0)

`library`, `judge` and `spans` fail, too, when 10000 cases or more never met some sort of answer.
Without a SEED, or with SEED 0, a fresh one is taken; it is always printed. The programs
beside compare are run when no path of a program is given. Case 3 of seed 9 alone is run again by
`compare random 9 1 --from 3`. The exit status is 0 when all answers
are equal, 1 when a case differs, 2 when something can't be run.
";

/// So many cases of calls on the library have to meet every sort of answer.
const ENOUGH_TO_MEET_ALL: u64 = 10_000;

struct Options {
    words: Vec<String>,
    /// Of listing, keeper and spans.
    programs: [Option<PathBuf>; 3],
    out: PathBuf,
    from: u64,
}

/// What the program does: its words and options come from the command line.
pub fn compare() -> ExitCode {
    match run() {
        Ok(true) => ExitCode::SUCCESS,
        Ok(false) => ExitCode::from(1),
        Err(reason) => {
            eprintln!("compare: {reason}");
            ExitCode::from(2)
        }
    }
}

fn options() -> Result<Options, String> {
    let mut options = Options {
        words: Vec::new(),
        programs: [None, None, None],
        out: PathBuf::from("failures"),
        from: 0,
    };
    let mut arguments = std::env::args().skip(1);
    while let Some(argument) = arguments.next() {
        let mut value = || arguments.next().ok_or(format!("{argument} needs a value"));
        match argument.as_str() {
            "--listing" => options.programs[0] = Some(program(&value()?)?),
            "--keeper" => options.programs[1] = Some(program(&value()?)?),
            "--spans" => options.programs[2] = Some(program(&value()?)?),
            "--out" => options.out = PathBuf::from(value()?),
            "--from" => options.from = number(&value()?)?,
            _ => options.words.push(argument),
        }
    }
    if options.programs.iter().all(Option::is_none) {
        options.programs = ["listing", "keeper", "spans"].map(beside);
    }
    Ok(options)
}

/// Programs are run in another folder, so that their paths have to be whole.
fn program(path: &str) -> Result<PathBuf, String> {
    fs::canonicalize(path).map_err(|error| format!("{path}: {error}"))
}

fn beside(name: &str) -> Option<PathBuf> {
    let path = std::env::current_exe().ok()?.with_file_name(name);
    path.exists().then_some(path)
}

fn number(word: &str) -> Result<u64, String> {
    word.parse().map_err(|_| format!("{word} is not a number"))
}

/// True when all answers were equal.
fn run() -> Result<bool, String> {
    let options = options()?;
    let words: Vec<&str> = options.words.iter().map(String::as_str).collect();
    let Some((&command, rest)) = words.split_first() else {
        print!("{HELP}");
        return Err("which comparison?".to_string());
    };
    if command == "--help" || command == "help" {
        print!("{HELP}");
        return Ok(true);
    }
    let programs = Programs::new(options.programs.clone()).map_err(|error| error.to_string())?;
    let session = Session { options: &options, programs: &programs };
    session.command(command, rest)
}

struct Session<'a> {
    options: &'a Options,
    programs: &'a Programs,
}

impl Session<'_> {
    fn command(&self, command: &str, rest: &[&str]) -> Result<bool, String> {
        if command == "replay" {
            return self.replay(rest.first().ok_or("replay needs a FILE")?);
        }
        let seed = rest.first().map_or(Ok(0), |word| number(word))?;
        let seed = if seed == 0 { fresh_seed() } else { seed };
        let count = rest.get(1).map_or(Ok(1_000), |word| number(word))?;
        match command {
            "exhaustive" => self.exhaustive(),
            "random" => self.cases(command, seed, count, random_case),
            "demand3" => self.cases(command, seed, count, sound_pair),
            "library" => self.calls(command, seed, count, author::calls, |_| true),
            "judge" => self.calls(command, seed, count, judging::judged, |call| call == "judge"),
            "spans" => self.calls(command, seed, count, spanning::spanned, |call| call == "spans"),
            "lockstep" => self.lockstep(seed, count),
            "tally" => Ok(self.tally(seed, count)),
            "long" => self.cases(command, seed, 1, long::long),
            _ => Err(format!("{command} is not known; compare --help says more")),
        }
    }

    fn exhaustive(&self) -> Result<bool, String> {
        match exhaustive::exhaustive(self.programs).map_err(|error| error.to_string())? {
            None => Ok(true),
            Some(case) => self.failed(&case, "exhaustive"),
        }
    }

    /// So many cases from a seed, up to the first that differs.
    fn cases(
        &self,
        name: &str,
        seed: u64,
        count: u64,
        make: fn(&mut Chance) -> Case,
    ) -> Result<bool, String> {
        self.cases_by(name, seed, count, make, |case| difference(case, self.programs))
    }

    fn cases_by(
        &self,
        name: &str,
        seed: u64,
        count: u64,
        make: fn(&mut Chance) -> Case,
        mut difference: impl FnMut(&Case) -> io::Result<Option<Difference>>,
    ) -> Result<bool, String> {
        println!("{name}: seed {seed}, {count} cases from case {}", self.options.from);
        let mut progress = Progress::new(name, count);
        for done in 0..count {
            let number = self.options.from + done;
            let case = make(&mut Chance::of_case(seed, number));
            if difference(&case).map_err(|error| error.to_string())?.is_some() {
                println!("{name}: case {number} of seed {seed} differs");
                return self.failed(&case, &format!("{name}-{seed}-{number}"));
            }
            progress.show(done + 1);
        }
        println!("{name}: seed {seed}, {count} cases, all equal, in {:.1} s", progress.seconds());
        Ok(true)
    }

    /// Cases of calls on the library, which have to meet every sort of answer of some calls.
    fn calls(
        &self,
        name: &str,
        seed: u64,
        count: u64,
        make: fn(&mut Chance) -> Case,
        counted: fn(&str) -> bool,
    ) -> Result<bool, String> {
        println!("{name}: {}", gate::notice());
        if gate::LIBRARY.is_none() {
            return Ok(true);
        }
        let mut met = Met::default();
        let differs = |case: &Case| library::difference(case, &mut met);
        if !self.cases_by(name, seed, count, make, differs)? {
            return Ok(false);
        }
        println!("{name}: {} calls compared, and these answers met:", met.calls());
        Ok(met.print(counted) || count < ENOUGH_TO_MEET_ALL)
    }

    fn lockstep(&self, seed: u64, count: u64) -> Result<bool, String> {
        println!("lockstep: seed {seed}, {count} scripts");
        let keeper = self.programs.keeper.as_ref().ok_or("this needs --keeper PATH")?;
        for number in 0..count {
            let mut case = scripts::script(&mut Chance::of_case(seed, number));
            case.files.clear();
            case.lines.retain(|line| !names_a_file(&line.text));
            if let Some(said) =
                lockstep::lockstep(&case, keeper).map_err(|error| error.to_string())?
            {
                println!("DIFFERENT: lockstep: case {number} of seed {seed}: {said}");
                return Ok(false);
            }
        }
        println!("lockstep: every answer came at once");
        Ok(true)
    }

    fn tally(&self, seed: u64, count: u64) -> bool {
        println!("tally: seed {seed}, {count} random cases");
        let mut tally = tally::Tally::default();
        (0..count).for_each(|number| tally.add(&random_case(&mut Chance::of_case(seed, number))));
        tally.print()
    }

    fn replay(&self, path: &str) -> Result<bool, String> {
        let text = fs::read_to_string(path).map_err(|error| format!("{path}: {error}"))?;
        let case = Case::from_text(&text)?;
        match difference(&case, self.programs).map_err(|error| error.to_string())? {
            None => println!("equal"),
            Some(difference) => {
                println!("DIFFERENT: {}", difference.said);
                return Ok(false);
            }
        }
        Ok(true)
    }

    fn failed(&self, case: &Case, name: &str) -> Result<bool, String> {
        let done: io::Result<()> = report::report(case, name, &self.options.out, self.programs);
        done.map(|()| false).map_err(|error| error.to_string())
    }
}

fn random_case(chance: &mut Chance) -> Case {
    match chance.within(0..=99) {
        0 => scripts::script_beyond_a_book(chance),
        1..=34 => {
            let book = books::any_book(chance);
            let arguments = arguments::arguments(chance, &book);
            Case::book(book, &arguments)
        }
        _ => scripts::script(chance),
    }
}

fn sound_pair(chance: &mut Chance) -> Case {
    let case = demand3::pair(chance);
    if let Err(said) = pair_is_sound(&case) {
        panic!("a pair that doesn't look the same to its model: {said}\n{}", case.to_text());
    }
    case
}

fn names_a_file(line: &[u8]) -> bool {
    let names: [&[u8]; 4] = [b"load", b"save", b"store", b"deliver"];
    names.iter().any(|name| line.starts_with(name))
}
