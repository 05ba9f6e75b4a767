//! Makes streams of cases on standard output.

use oracle::exit;
use oracle::make::every::Every;
use oracle::make::{bench, lanes, members, notices, numbers, random};
use std::io::{self, BufWriter, Write};
use std::process::ExitCode;

const USAGE: &str = "\
usage: streams all LENGTH ALPHABET [PREFIX]   every text up to LENGTH characters, in each mode
       streams random SEED COUNT [KIND..]     seeded cases; kinds: text frame lines rooms damaged
                                              refused limits
       streams notices SEED COUNT             seeded Diagnostic source literals of several lines
       streams numbers SEED COUNT             seeded texts rich in numbers, up to 65,535 and beyond
       streams members SEED COUNT             seeded texts rich in `number` and `date`
       streams lanes SEED COUNT               seeded texts rich in what the ways of reading hand to
                                              each other
       streams bench                          B1 to B15
In ALPHABET and PREFIX \\n is a newline, \\t a tabulator and \\\\ a backslash.";

fn main() -> ExitCode {
    let arguments: Vec<String> = std::env::args().skip(1).collect();
    let words: Vec<&str> = arguments.iter().map(String::as_str).collect();
    let mut output = BufWriter::with_capacity(1 << 16, io::stdout().lock());
    match make(&words, &mut output) {
        None => {
            eprintln!("{USAGE}");
            ExitCode::from(2)
        }
        Some(written) => exit::after("streams", written.and_then(|()| output.flush())),
    }
}

/// Makes the stream that is asked for; nothing if the words make no sense.
fn make(words: &[&str], output: &mut impl Write) -> Option<io::Result<()>> {
    match words {
        ["all", length, alphabet] => Some(Every::from_words(length, alphabet, "")?.write(output)),
        ["all", length, alphabet, prefix] => {
            Some(Every::from_words(length, alphabet, prefix)?.write(output))
        }
        ["random", seed, count, kinds @ ..] => {
            let kinds = kinds.iter().map(|name| random::kind_named(name));
            let kinds = kinds.collect::<Option<Vec<_>>>()?;
            Some(random::write(seed.parse().ok()?, count.parse().ok()?, &kinds, output))
        }
        ["notices", seed, count] => {
            Some(notices::write(seed.parse().ok()?, count.parse().ok()?, output))
        }
        ["numbers", seed, count] => {
            Some(numbers::write(seed.parse().ok()?, count.parse().ok()?, output))
        }
        ["members", seed, count] => {
            Some(members::write(seed.parse().ok()?, count.parse().ok()?, output))
        }
        ["lanes", seed, count] => {
            Some(lanes::write(seed.parse().ok()?, count.parse().ok()?, output))
        }
        ["bench"] => Some(bench::cases().iter().try_for_each(|draft| draft.case().write(output))),
        _ => None,
    }
}
