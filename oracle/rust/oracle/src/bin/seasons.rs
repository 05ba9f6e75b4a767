//! Writes the Rust's totals of a list of texts, or makes such a list.

use oracle::exit;
use oracle::make::dice::Dice;
use oracle::make::texts;
use oracle::seasons::Totals;
use std::io::{self, BufWriter, Read, Write};
use std::process::ExitCode;

const USAGE: &str = "\
usage: seasons totals <LIST          the totals of a list, or `answer 25 0`
       seasons list SEED COUNT       a list of so many seeded texts, at most 65,535
       seasons templates COUNT       a list of so many templates of 200 bytes each";

fn main() -> ExitCode {
    let words: Vec<String> = std::env::args().skip(1).collect();
    let words: Vec<&str> = words.iter().map(String::as_str).collect();
    match act(&words) {
        Some(outcome) => exit::after("seasons", outcome),
        None => {
            eprintln!("{USAGE}");
            ExitCode::from(2)
        }
    }
}

fn act(words: &[&str]) -> Option<io::Result<()>> {
    match words {
        ["totals"] => Some(totals()),
        ["list", seed, count] => Some(list(seed.parse().ok()?, count.parse().ok()?)),
        ["templates", count] => Some(templates(count.parse().ok()?)),
        _ => None,
    }
}

fn totals() -> io::Result<()> {
    let mut list = Vec::new();
    io::stdin().lock().read_to_end(&mut list)?;
    match Totals::of(&list) {
        Some(totals) => write!(io::stdout(), "{totals}"),
        None => writeln!(io::stdout(), "answer 25 0"),
    }
}

/// Parts of templates, of which none has an error.
const PARTS: &[&str] = &[
    "Sample {number} of {date}: ",
    "{moisture:>5.1} % water, ",
    "{name:<9} ",
    "The honey was stored at room temperature. ",
    "{:.*} {} {0} ",
    "{{diastase}} ",
    "stored by {keeper:?}, ",
];

/// Parts as long as one fits, then spaces.
fn templates(count: u16) -> io::Result<()> {
    let mut dice = Dice::new(14);
    let mut output = BufWriter::new(io::stdout().lock());
    output.write_all(&count.to_le_bytes())?;
    for _ in 0..count {
        let mut text = String::new();
        loop {
            let part = dice.pick(PARTS);
            if text.len() + part.len() > 200 {
                break;
            }
            text.push_str(part);
        }
        output.write_all(&200u16.to_le_bytes())?;
        write!(output, "{text:200}")?;
    }
    output.flush()
}

/// One text of sixteen has a byte that is no UTF-8 there, mostly.
fn list(seed: u64, count: u16) -> io::Result<()> {
    let mut dice = Dice::new(seed);
    let mut output = BufWriter::new(io::stdout().lock());
    output.write_all(&count.to_le_bytes())?;
    for _ in 0..count {
        let mut text = texts::text(&mut dice).into_bytes();
        if dice.once_in(16) {
            let at = dice.below(text.len() + 1);
            text.insert(at, dice.pick(&[0xFF, 0x80, 0xC3]));
        }
        text.truncate(65_535);
        output.write_all(&u16::try_from(text.len()).expect("truncated").to_le_bytes())?;
        output.write_all(&text)?;
    }
    output.flush()
}
