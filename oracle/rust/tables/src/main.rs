//! Writes the character tables: identifiers from the compiler's own lexer, White_Space as
//! docs/RULES.md lists it and the standard library answers.
//!
//! `tables write ROOT` writes every generated file below the repository's root and checks them;
//! `tables check ROOT` checks the files that are there and writes nothing. A compiler whose lexer
//! knows another Unicode than 17 writes nothing, and has only the files compared with each other.

mod facts;
mod files;
mod table;

use std::path::Path;
use std::process::ExitCode;
use table::Table;

fn main() -> ExitCode {
    let arguments: Vec<String> = std::env::args().skip(1).collect();
    let outcome = match arguments.iter().map(String::as_str).collect::<Vec<_>>()[..] {
        ["write", root] => write(Path::new(root)),
        ["check", root] => check(Path::new(root)),
        _ => Err("usage: tables write ROOT | tables check ROOT".to_owned()),
    };
    match outcome {
        Ok(()) => ExitCode::SUCCESS,
        Err(message) => {
            eprintln!("tables: {message}");
            ExitCode::FAILURE
        }
    }
}

/// Writes the files, if the tables are as they are known to be, and reads them back.
fn write(root: &Path) -> Result<(), String> {
    let tables = table::compilers();
    facts(&tables)?;
    files::write(root, &tables)?;
    files::check(root, &tables)
}

/// The facts about the compiler's tables, then that every file has exactly these numbers. Where the
/// compiler knows another Unicode, the stand-in's tables take the place of the compiler's.
fn check(root: &Path) -> Result<(), String> {
    let compilers = table::compilers();
    let stored = files::stored(root)?;
    let another = |(mine, theirs)| facts::is_another_unicode(theirs, mine);
    if let Some((known, theirs)) = stored.iter().zip(&compilers).find(|&pair| another(pair)) {
        println!(
            "SKIPPED: this compiler's lexer knows another Unicode than 17.0.0 (its table `{}` has {} \
             characters, ours {}), so the tables are not compared with it, but with each other",
            known.word,
            theirs.size(),
            known.size()
        );
        facts(&stored)?;
        return files::check(root, &stored);
    }
    facts(&compilers)?;
    files::check(root, &compilers)
}

/// Checks what is known of each table, and says how large it is.
fn facts(tables: &[Table]) -> Result<(), String> {
    for table in tables {
        facts::check(table)?;
        println!("{}: {} ranges, {} characters", table.word, table.ranges.len(), table.size());
    }
    Ok(())
}
