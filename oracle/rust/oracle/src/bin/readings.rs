//! Compares the Rust with the grammar of docs/RULES.md on every text up to a length, in each mode.

use oracle::agreement::{MODES, readable};
use oracle::make::every::Every;
use std::convert::Infallible;
use std::process::ExitCode;

const USAGE: &str = "\
usage: readings LENGTH ALPHABET [PREFIX]   every text up to LENGTH characters, in each mode
In ALPHABET and PREFIX \\n is a newline, \\t a tabulator and \\\\ a backslash.";

fn main() -> ExitCode {
    let arguments: Vec<String> = std::env::args().skip(1).collect();
    let words: Vec<&str> = arguments.iter().map(String::as_str).collect();
    let every = match words[..] {
        [length, alphabet] => Every::from_words(length, alphabet, ""),
        [length, alphabet, prefix] => Every::from_words(length, alphabet, prefix),
        _ => None,
    };
    let Some(every) = every else {
        eprintln!("{USAGE}");
        return ExitCode::from(2);
    };
    let tally = Tally::of(&every);
    tally.print();
    if tally.counterexamples == 0 { ExitCode::SUCCESS } else { ExitCode::FAILURE }
}

/// What the comparison found.
#[derive(Default)]
struct Tally {
    texts: u64,
    /// The readable ones in each mode.
    readable: [u64; 3],
    counterexamples: u64,
    /// The first counterexample, which is as short as any.
    first: Option<String>,
}

impl Tally {
    fn of(every: &Every) -> Self {
        let mut tally = Tally::default();
        let Ok(()) = every.try_for_each::<Infallible>(|text| {
            tally.add(text);
            Ok(())
        });
        tally
    }

    fn add(&mut self, text: &str) {
        self.texts += 1;
        for mode in MODES {
            match readable(text, mode) {
                Ok(readable) => self.readable[mode as usize] += u64::from(readable),
                Err(found) => {
                    self.counterexamples += 1;
                    self.first.get_or_insert_with(|| format!("{text:?} in {mode:?}: {found}"));
                }
            }
        }
    }

    fn print(&self) {
        println!("texts {}", self.texts);
        for (mode, readable) in MODES.iter().zip(self.readable) {
            println!("readable in {mode:?} {readable}");
        }
        println!("counterexamples {}", self.counterexamples);
        if let Some(first) = &self.first {
            println!("{first}");
        }
    }
}
