//! Runs a case through the gate and through the second program, and says where they differ.

use crate::agreement::disagreement;
use crate::case::{escape, Case, Folder, Run, Trial};
use crate::library::{self, met::Met};
use crate::programs::{Outcome, Programs};
use second::files::Memory;
use second::keeper::Keeper;
use second::limits::STORE_HEADER;
use second::listing::listing;
use second::spans_of_book::{spans_of_book, Asked, USAGE};
use second::wrong::Reading;
use std::io;

/// Where the gate differs, in words; and what sort of difference it is, so that a case that
/// is shrunk keeps to the one it was found for.
pub struct Difference {
    pub said: String,
    pub sort: String,
}

impl Difference {
    fn trouble(said: String) -> Difference {
        Difference { said, sort: "trouble".to_string() }
    }

    fn lines(said: String, expected: &str, got: &str) -> Difference {
        Difference { said, sort: format!("{} | {}", sort_of(expected), sort_of(got)) }
    }
}

/// What kind of line it is: its first word, with the number of a refusal and the like.
pub fn sort_of(line: &str) -> String {
    let mut words = line.split(' ');
    match words.next().unwrap_or("") {
        _ if line == "delivered 8" => "delivered nothing".to_string(),
        first @ ("refused" | "what?" | "can't") => {
            format!("{first} {}", words.next().unwrap_or(""))
        }
        first if first.parse::<u32>().is_ok() => {
            let names_a_moment = matches!(words.nth(1), Some("add" | "join"));
            if names_a_moment { "grant" } else { "span" }.to_string()
        }
        first => first.to_string(),
    }
}

/// The second program's answers to a keeper script, line by line.
pub struct Expected {
    pub answers: Vec<Vec<u8>>,
    pub files: Folder,
}

pub fn expected_of_keeper(case: &Case, run: Run) -> Expected {
    let mut keeper = Keeper::new(Memory { files: case.folder(run) }, Reading::Right);
    let answers = case.lines_of(run).map(|line| keeper.answer(&line.text)).collect();
    Expected { answers, files: keeper.files.files }
}

/// How the gate differs on this case; None when it agrees.
pub fn difference(case: &Case, programs: &Programs) -> io::Result<Option<Difference>> {
    match case.trial {
        Trial::Library => library::difference(case, &mut Met::default()),
        Trial::Book => book_difference(case, programs),
        Trial::Keeper => keeper_difference(case, programs),
        Trial::Pair => pair_difference(case, programs),
    }
}

/// What `spans` prints for its arguments and a book.
pub fn expected_of_spans(arguments: &[&[u8]], book: &[u8]) -> String {
    let asked = Asked::by(arguments);
    asked.map_or(USAGE.to_string(), |asked| spans_of_book(book, &asked, Reading::Right))
}

/// The gate's two programs against each other, then each against the second program.
fn book_difference(case: &Case, programs: &Programs) -> io::Result<Option<Difference>> {
    let (book, arguments) = (case.file(b"book"), case.arguments());
    let (listed, spanned) = (programs.run_listing(book)?, programs.run_spans(book)?);
    let expected = [listing(book, Reading::Right), expected_of_spans(&[], book)];
    let own = disagreement(expected[0].as_bytes(), expected[1].as_bytes());
    assert_eq!(own, None, "the second program's own listing and spans");
    if let Some(said) = disagreement(&listed.output, &spanned.output) {
        let (said, sort) = (format!("listing and spans: {said}"), "disagreement".to_string());
        return Ok(Some(Difference { said, sort }));
    }
    let different = printed_difference("listing", &expected[0], &listed)
        .or_else(|| printed_difference("spans", &expected[1], &spanned));
    if different.is_some() || arguments.is_empty() {
        return Ok(different);
    }
    let (asked, was_read) = programs.run_spans_with(&arguments, book)?;
    let named: Vec<String> = arguments.iter().map(|argument| escape(argument)).collect();
    let name = format!("spans {named:?}");
    let expected = expected_of_spans(&arguments, book);
    Ok(printed_difference(&name, &expected, &asked).or_else(|| {
        let said = format!("{name} reads the book, with arguments that it doesn't take");
        (expected == USAGE && was_read).then(|| Difference { said, sort: "read".to_string() })
    }))
}

/// How what a program printed differs.
fn printed_difference(name: &str, expected: &str, got: &Outcome) -> Option<Difference> {
    if let Some(trouble) = &got.trouble {
        return Some(Difference::trouble(format!("{name} {trouble}")));
    }
    first_different_line(expected.as_bytes(), &got.output).map(|(place, expected, got)| {
        let place = place + 1;
        let said = format!("{name}, line {place}: expected `{expected}`, the gate prints `{got}`");
        Difference::lines(said, &expected, &got)
    })
}

fn keeper_difference(case: &Case, programs: &Programs) -> io::Result<Option<Difference>> {
    let expected = expected_of_keeper(case, Run::Left);
    let got = programs.run_keeper(&case.input(Run::Left), &case.folder(Run::Left))?;
    if let Some(trouble) = &got.trouble {
        return Ok(Some(Difference::trouble(format!("keeper {trouble}"))));
    }
    let output = expected.answers.concat();
    if let Some((place, wanted, printed)) = first_different_line(&output, &got.output) {
        let command = command_of_output_line(case, &expected, place);
        let said = format!("keeper, {command}: expected `{wanted}`, the gate prints `{printed}`");
        return Ok(Some(Difference::lines(said, &wanted, &printed)));
    }
    let file = different_file(&expected.files, &got.files);
    Ok(file.map(|said| Difference { said, sort: "file".to_string() }))
}

/// The command that printed this line of the expected output.
fn command_of_output_line(case: &Case, expected: &Expected, place: usize) -> String {
    let mut printed = 0;
    for (number, (line, answer)) in case.lines_of(Run::Left).zip(&expected.answers).enumerate() {
        printed += answer.iter().filter(|&&byte| byte == b'\n').count();
        if printed > place {
            return format!("line {} `{}`", number + 1, escape(&line.text));
        }
    }
    "after the last answer".to_string()
}

/// Place, expected and got of the first line in which two outputs differ.
fn first_different_line(expected: &[u8], got: &[u8]) -> Option<(usize, String, String)> {
    if expected == got {
        return None;
    }
    let mut expected = expected.split(|&byte| byte == b'\n');
    let mut got = got.split(|&byte| byte == b'\n');
    for place in 0.. {
        let (a, b) = (expected.next(), got.next());
        if a != b || a.is_none() {
            let show = |line: Option<&[u8]>| line.map_or("(nothing)".to_string(), escape);
            return Some((place, show(a), show(b)));
        }
    }
    None
}

fn different_file(expected: &Folder, got: &Folder) -> Option<String> {
    let mut names: Vec<&Vec<u8>> = expected.keys().chain(got.keys()).collect();
    names.sort();
    let name = names.into_iter().find(|name| expected.get(*name) != got.get(*name))?;
    let show = |folder: &Folder| match folder.get(name) {
        None => "no such file".to_string(),
        Some(bytes) if bytes.len() <= 64 => format!("{bytes:02x?}"),
        Some(bytes) => format!("{} bytes", bytes.len()),
    };
    Some(format!("file {}: expected {}, the gate has {}", escape(name), show(expected), show(got)))
}

/// The model's answers in one run of a pair: the answer lines and the files delivered.
struct ModelsAnswers {
    commands: Vec<Vec<u8>>,
    answers: Vec<Vec<u8>>,
    files: Vec<Option<Vec<u8>>>,
}

/// Which lines of an output are the model's is told by the answers that are expected.
fn models_answers(
    case: &Case,
    run: Run,
    expected: &Expected,
    output: &[u8],
    files: &Folder,
) -> ModelsAnswers {
    let mut lines = output.split_inclusive(|&byte| byte == b'\n');
    let mut model = ModelsAnswers { commands: Vec::new(), answers: Vec::new(), files: Vec::new() };
    for (line, answer) in case.lines_of(run).zip(&expected.answers) {
        let count = answer.iter().filter(|&&byte| byte == b'\n').count();
        let got: Vec<u8> = lines.by_ref().take(count).flatten().copied().collect();
        if line.run != Run::Model {
            continue;
        }
        model.commands.push(line.text.clone());
        model.answers.push(got);
        if line.text.starts_with(b"deliver") {
            let name = line.text.rsplit(|&byte| byte == b' ').next().unwrap_or(b"");
            model.files.push(files.get(name).cloned());
        }
    }
    model
}

fn first_difference_of_runs(left: &ModelsAnswers, right: &ModelsAnswers) -> Option<Difference> {
    for ((command, a), b) in left.commands.iter().zip(&left.answers).zip(&right.answers) {
        if a != b {
            let (a, b) = (escape(a.trim_ascii_end()), escape(b.trim_ascii_end()));
            let said = format!("`{}`: one run answers `{a}`, the other `{b}`", escape(command));
            // Which of the two runs has which answer doesn't matter.
            return Some(Difference { said, sort: "runs".to_string() });
        }
    }
    let said = "the model's deliveries differ in their bytes".to_string();
    (left.files != right.files).then(|| Difference { said, sort: "file".to_string() })
}

/// Demand 3: the model's answers in the two runs of the gate.
fn pair_difference(case: &Case, programs: &Programs) -> io::Result<Option<Difference>> {
    let mut runs = Vec::new();
    for run in [Run::Left, Run::Right] {
        let got: Outcome = programs.run_keeper(&case.input(run), &case.folder(run))?;
        if let Some(trouble) = got.trouble {
            return Ok(Some(Difference::trouble(format!("keeper {trouble}"))));
        }
        let expected = expected_of_keeper(case, run);
        runs.push(models_answers(case, run, &expected, &got.output, &got.files));
    }
    Ok(first_difference_of_runs(&runs[0], &runs[1]))
}

/// A pair is sound when its runs have stores of the same size and header, and the second
/// program's answers to the model are the same in both.
pub fn pair_is_sound(case: &Case) -> Result<(), String> {
    let (left, right) = (case.folder(Run::Left), case.folder(Run::Right));
    if let Some(name) = left.keys().find(|name| !alike(name, left.get(*name), right.get(*name))) {
        return Err(format!("the two files {} aren't alike", escape(name)));
    }
    let answers = |run| {
        let expected = expected_of_keeper(case, run);
        models_answers(case, run, &expected, &expected.answers.concat(), &expected.files)
    };
    let different = first_difference_of_runs(&answers(Run::Left), &answers(Run::Right));
    different.map_or(Ok(()), |difference| Err(difference.said))
}

fn alike(name: &[u8], left: Option<&Vec<u8>>, right: Option<&Vec<u8>>) -> bool {
    let (Some(left), Some(right)) = (left, right) else {
        return false;
    };
    let header = |store: &[u8]| store[..store.len().min(STORE_HEADER)].to_vec();
    !name.starts_with(b"store") || (left.len() == right.len() && header(left) == header(right))
}
