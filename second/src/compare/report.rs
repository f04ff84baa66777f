//! What is done with a failing case: it is written to a file, shrunk, and the small one
//! written beside it.

use crate::case::{Case, Trial};
use crate::differ::{difference, pair_is_sound, Difference};
use crate::programs::Programs;
use crate::shrink::shrink;
use std::fs;
use std::io;
use std::path::Path;

/// Prints the difference, writes the case as NAME.case and the small one as NAME.small.case.
pub fn report(case: &Case, name: &str, folder: &Path, programs: &Programs) -> io::Result<()> {
    let Some(Difference { said, sort }) = difference(case, programs)? else {
        println!("DIFFERENT once, but not when run again: {name}");
        return Ok(());
    };
    println!("DIFFERENT: {said}");
    fs::create_dir_all(folder)?;
    let whole = folder.join(format!("{name}.case"));
    fs::write(&whole, text(case, name, &said))?;
    println!("the case is in {} ({} lines and bytes)", whole.display(), case.size());

    eprintln!("shrinking it, a minute at most");
    let still_fails = |case: &Case| {
        let found = difference(case, programs).ok().flatten();
        let differs = found.is_some_and(|found| found.sort == sort);
        differs && (case.trial != Trial::Pair || pair_is_sound(case).is_ok())
    };
    let small = shrink(case, &still_fails);
    let said = difference(&small, programs)?.map_or(said, |difference| difference.said);
    let path = folder.join(format!("{name}.small.case"));
    let text = text(&small, name, &said);
    fs::write(&path, &text)?;
    println!("a small one is in {} ({} lines and bytes)", path.display(), small.size());
    if text.len() < 2_000 {
        print!("{text}");
    }
    Ok(())
}

fn text(case: &Case, name: &str, said: &str) -> String {
    let programs = match case.trial {
        Trial::Library => ", linked with the library",
        Trial::Book => " --listing PATH --spans PATH",
        Trial::Keeper | Trial::Pair => " --keeper PATH",
    };
    format!(
        "# {name}: {said}\n# Run it again with: compare replay FILE{programs}\n{}",
        case.to_text()
    )
}
