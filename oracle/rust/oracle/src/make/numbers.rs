//! Numbers up to 65,535 and beyond, wherever one may stand (docs/RULES.md, R3.7, R5.4, R5.10): places,
//! widths and precisions, alone and before a `$`, fields, and where no number belongs.

use super::dice::Dice;
use super::{Draft, frames};
use std::io::{self, Write};

/// Numbers of zeros before the others.
const ZEROS: &[usize] = &[0, 0, 0, 0, 1, 1, 2, 5, 30];
const NAMES: &[&str] = &["a", "b", "ø", "r", "_"];
const SPACES: &[&str] = &["", "", "", "", " ", "\n", "\u{3000}"];
const LEADS: &[&str] = &["", "", "", "<", "*^", "0>", "}<", "5^"];
const MARKS: &[&str] = &["", "", "", "+", "-", "#", "-#"];
const FLAGS: &[&str] = &["", "", "0"];
const TYPES: &[&str] = &["", "", "", "?", "x?", "X", "e", "_", "0", "?x"];
const LITERALS: &[&str] = &["a", "65536", "$", ".", "{{65536", "}}", "\n "];
/// What may follow a place, or its closing brace.
const ENDS: &[&str] = &["", "$", ".", ",", "=", "?", "<", "+", "é"];

/// Writes `count` cases.
pub fn write(seed: u64, count: usize, output: &mut impl Write) -> io::Result<()> {
    let mut dice = Dice::new(seed);
    (0..count).try_for_each(|_| draft(&mut dice).case().write(output))
}

fn draft(dice: &mut Dice) -> Draft {
    let mode = dice.pick(&[0, 0, 0, 0, 0, 0, 1, 2]);
    let mut draft = Draft::plain(mode, text(dice));
    if dice.once_in(4) {
        frames::frame_anyhow(dice, &mut draft);
    }
    draft
}

/// One to three elements, and sometimes the start of one more.
fn text(dice: &mut Dice) -> String {
    let mut text: String = (0..1 + dice.below(3)).map(|_| element(dice)).collect();
    if dice.once_in(8) {
        text += &opened(dice);
    }
    text
}

fn element(dice: &mut Dice) -> String {
    match dice.below(8) {
        0 => dice.pick(LITERALS).to_owned(),
        1 => opened(dice) + dice.pick(ENDS) + "}",
        _ => opened(dice) + "}",
    }
}

/// A placeholder up to where its closing brace belongs.
fn opened(dice: &mut Dice) -> String {
    let place = match dice.below(8) {
        0 | 1 => String::new(),
        2 => dice.pick(NAMES).to_owned(),
        3 => format!("{}.{}", dice.pick(NAMES), number(dice)),
        4 => format!("{}{}{}", number(dice), dice.pick(ENDS), number(dice)),
        _ => number(dice),
    };
    let spec = if dice.once_in(3) { String::new() } else { format!(":{}", spec(dice)) };
    format!("{{{place}{}{spec}{}", dice.pick(SPACES), dice.pick(SPACES))
}

fn spec(dice: &mut Dice) -> String {
    let lead = format!("{}{}{}", dice.pick(LEADS), dice.pick(MARKS), dice.pick(FLAGS));
    let width = if dice.once_in(3) { String::new() } else { count(dice) };
    let precision = match dice.below(6) {
        0 | 1 => String::new(),
        2 => ".*".to_owned(),
        _ => format!(".{}", count(dice)),
    };
    format!("{lead}{width}{precision}{}", dice.pick(TYPES))
}

/// Mostly a number, and every other one with its `$`.
fn count(dice: &mut Dice) -> String {
    let dollar = dice.pick(&["", "$"]);
    if dice.once_in(8) { format!("{}{dollar}", dice.pick(NAMES)) } else { number(dice) + dollar }
}

/// Zeros, and digits within the range, around its end, around where they wrap, or many.
fn number(dice: &mut Dice) -> String {
    let zeros = "0".repeat(dice.pick(ZEROS));
    let digits = match dice.below(6) {
        0 => dice.below(65_536).to_string(),
        1 | 2 => (65_530 + dice.below(12)).to_string(),
        3 => (65_536 * (1 + dice.below(100_000)) - 1 + dice.below(3)).to_string(),
        4 => dice.pick(&["0", "7", "99999", "100000", "655350", "655360"]).to_owned(),
        _ => (0..5 + dice.below(36)).map(|_| char::from(b'0' + dice.below(10) as u8)).collect(),
    };
    zeros + &digits
}
