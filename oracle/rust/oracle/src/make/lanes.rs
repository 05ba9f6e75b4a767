//! What the ways of reading hand to each other: literals around the lengths of blocks, names that turn into
//! other letters, placeholders that are sound up to their last character, bytes that are not UTF-8 around
//! the ends of blocks, and lists without a record to spare.

use super::dice::Dice;
use super::{Draft, frames};
use crate::answer::Answer;
use crate::case::LARGEST_ROOM;
use std::io::{self, Write};

/// Around the blocks of 8, 16 and 32 bytes.
const LENGTHS: &[usize] =
    &[1, 2, 3, 7, 8, 9, 15, 16, 17, 23, 24, 25, 31, 32, 33, 47, 48, 49, 63, 64, 65, 96];
const NAMES: &[&str] = &[
    "a", "name", "value_7", "r", "r7", "_", "_a", "x", "X", "aø", "øa", "größe", "温度", "é",
    "a·b", "𝒳y", "a\u{300}",
];
const NUMBERS: &[&str] = &["0", "7", "00", "42", "999", "9999", "10000", "65535", "65536"];
const SPACES: &[&str] = &["", "", "", "", "", "", " ", "\n"];
const LEADS: &[&str] = &["", "", "", "<", ">", "^", "*<", "0>", "ø^", "}<", "{>", "é"];
const MARKS: &[&str] = &["", "", "", "+", "-", "#", "0", "+#0", "-0"];
const TYPES: &[&str] = &["", "", "", "?", "x", "X", "x?", "_", "e", "money", "größe", "xa"];
/// What stands where a closing brace belongs.
const ENDS: &[&str] =
    &["}", "}", "}", "}", "}", "}", "}", "", ",", "+}", "=}", "?}", "$}", ".}", "}}"];

/// Writes `count` cases.
pub fn write(seed: u64, count: usize, output: &mut impl Write) -> io::Result<()> {
    let mut dice = Dice::new(seed);
    (0..count).try_for_each(|_| draft(&mut dice).case().write(output))
}

fn draft(dice: &mut Dice) -> Draft {
    let mut bytes = text(dice).into_bytes();
    if dice.once_in(8) {
        break_one(dice, &mut bytes);
    }
    let mut draft = Draft::plain(dice.pick(&[0, 0, 0, 0, 0, 0, 0, 1, 2]), bytes);
    if dice.once_in(8) {
        frames::frame_anyhow(dice, &mut draft);
    }
    lend_little(dice, &mut draft);
    draft
}

/// Breaks a byte around the end of a block, from either end of the text.
fn break_one(dice: &mut Dice, bytes: &mut [u8]) {
    let far = dice.pick(&[0, 1, 7, 8, 15, 16, 30, 31, 32, 33, 34, 63, 64, 65]);
    let place = if dice.once_in(2) { Some(far) } else { bytes.len().checked_sub(1 + far) };
    if let Some(byte) = place.and_then(|place| bytes.get_mut(place)) {
        *byte = dice.pick(&[0x80, 0xBF, 0xC3, 0xE6, 0xF0, 0xFF]);
    }
}

/// Lists with a record for each byte, with one less, with as many records as are needed, or with all the
/// room there is.
fn lend_little(dice: &mut Dice, draft: &mut Draft) {
    let length = u16::try_from(draft.text.len()).unwrap_or(u16::MAX);
    match dice.below(5) {
        0 => draft.rooms = [length; 4],
        1 => draft.rooms = [length.saturating_sub(1); 4],
        2 => {
            let needed = Answer::to(&draft.case()).counts;
            draft.rooms = needed.map(|needed| needed.min(LARGEST_ROOM.into()) as u16);
        }
        _ => {}
    }
}

/// Up to eight elements, and sometimes the last of them without its last character.
fn text(dice: &mut Dice) -> String {
    let mut text: String = (0..1 + dice.below(8)).map(|_| element(dice)).collect();
    if dice.once_in(4) {
        text.pop();
    }
    text
}

fn element(dice: &mut Dice) -> String {
    match dice.below(3) {
        0 => literal(dice),
        _ => placeholder(dice),
    }
}

/// Plain letters, and sometimes one in their midst that is not ASCII, or a doubled brace after them.
fn literal(dice: &mut Dice) -> String {
    let length = dice.pick(LENGTHS);
    let mut text = "a".repeat(length);
    if dice.once_in(4) {
        text.insert_str(dice.below(length + 1), dice.pick(&["ø", "日", "𝒳"]));
    }
    text + dice.pick(&["", "", "", "{{", "}}", "}"])
}

fn placeholder(dice: &mut Dice) -> String {
    let place = match dice.below(4) {
        0 => "",
        1 => dice.pick(NUMBERS),
        _ => dice.pick(NAMES),
    };
    let spec = if dice.once_in(2) { String::new() } else { format!(":{}", spec(dice)) };
    format!("{{{place}{}{spec}{}{}", dice.pick(SPACES), dice.pick(SPACES), dice.pick(ENDS))
}

fn spec(dice: &mut Dice) -> String {
    let width = match dice.below(6) {
        0 | 1 => String::new(),
        2 => format!("{}$", dice.pick(NUMBERS)),
        3 => format!("{}$", dice.pick(NAMES)),
        _ => dice.pick(NUMBERS).to_owned(),
    };
    let precision = match dice.below(6) {
        0..=2 => String::new(),
        3 => dice.pick(&[".*", ".", ".1$", ".a$"]).to_owned(),
        _ => format!(".{}", dice.pick(NUMBERS)),
    };
    format!("{}{}{width}{precision}{}", dice.pick(LEADS), dice.pick(MARKS), dice.pick(TYPES))
}
