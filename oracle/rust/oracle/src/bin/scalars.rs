//! Asks the three character questions of every scalar value, through the standard library and the
//! stand-in for rustc_lexer, and lists what they answer as maximal ranges.

use oracle::exit;
use std::io::{self, BufWriter, Write};
use std::process::ExitCode;

fn main() -> ExitCode {
    exit::after("scalars", list())
}

fn list() -> io::Result<()> {
    let mut output = BufWriter::new(io::stdout().lock());
    section("space", char::is_whitespace, &mut output)?;
    section("start", rustc_lexer::is_id_start, &mut output)?;
    section("continue", rustc_lexer::is_id_continue, &mut output)?;
    output.flush()
}

/// A heading with the number of ranges, then a line for each.
fn section(name: &str, holds: fn(char) -> bool, output: &mut impl Write) -> io::Result<()> {
    let ranges = ranges_where(holds);
    writeln!(output, "{name} {}", ranges.len())?;
    ranges.iter().try_for_each(|(low, high)| writeln!(output, "{low:X} {high:X}"))
}

/// The maximal ranges of scalar values that hold. The surrogates are no scalar values, so a range
/// ends before them.
fn ranges_where(holds: fn(char) -> bool) -> Vec<(u32, u32)> {
    let mut ranges: Vec<(u32, u32)> = Vec::new();
    for c in ('\0'..=char::MAX).filter(|&c| holds(c)).map(u32::from) {
        match ranges.last_mut() {
            Some((_, high)) if *high + 1 == c => *high = c,
            _ => ranges.push((c, c)),
        }
    }
    ranges
}
