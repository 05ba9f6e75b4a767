//! Compares the Rust's pieces of joined texts with the join of its pieces of the two.

use oracle::make::every::Every;
use oracle::pairs::Tally;
use std::process::ExitCode;

const USAGE: &str = "\
usage: joins all LENGTH ALPHABET [PREFIX]   every pair of texts without errors up to LENGTH
                                            characters, in each mode and in three styles
       joins random SEED COUNT              seeded random pairs
In ALPHABET and PREFIX \\n is a newline, \\t a tabulator and \\\\ a backslash.";

fn main() -> ExitCode {
    let arguments: Vec<String> = std::env::args().skip(1).collect();
    let words: Vec<&str> = arguments.iter().map(String::as_str).collect();
    let Some(tally) = tally(&words) else {
        eprintln!("{USAGE}");
        return ExitCode::from(2);
    };
    tally.print();
    let compared = tally.within.iter().sum::<u64>();
    if tally.counterexamples == 0 && compared > 0 { ExitCode::SUCCESS } else { ExitCode::FAILURE }
}

/// What the comparison that is asked for finds; nothing if the words make no sense.
fn tally(words: &[&str]) -> Option<Tally> {
    match words {
        ["all", length, alphabet] => {
            Some(Tally::of_every(&Every::from_words(length, alphabet, "")?))
        }
        ["all", length, alphabet, prefix] => {
            Some(Tally::of_every(&Every::from_words(length, alphabet, prefix)?))
        }
        ["random", seed, count] => Some(Tally::of_random(seed.parse().ok()?, count.parse().ok()?)),
        _ => None,
    }
}
