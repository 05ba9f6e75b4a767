//! Notices: Diagnostic source literals with newlines in every place where one may or may not end a
//! line (docs/RULES.md, R6.10 to R6.14), often in lists with one record too few.

use super::Draft;
use super::dice::Dice;
use super::frames::right_snippet;
use crate::answer::Answer;
use crate::case::LARGEST_ROOM;
use std::io::{self, Write};

/// Literal text between placeholders, doubled braces among it.
const LITERALS: &[&str] = &[
    "a",
    "note",
    "\n",
    "\n ",
    "\n\n",
    "  b",
    " \n",
    "é\n",
    "\u{3000}c",
    "\n\u{A0}\u{2003}d",
    "\r\n",
    "\u{85}",
    "{{",
    "}}",
    "{{\n",
    "}}\n ",
    "{{ e",
];
/// What names an argument, or nothing.
const PLACES: &[&str] = &["", "", "0", "a", "name", "é"];
/// The place of a field, perhaps not written.
const FIELDS: &[&str] = &["", "b", "日", "0"];
/// Whitespace that belongs to a place: its newlines end no line, and none of it is cut.
const PLAIN: &[&str] = &["", "", "", " ", "\n", "\n ", " \n\t", "\u{2028}\n", "\u{3000}"];
/// What stands after a colon, up to the next brace.
const TEXTS: &[&str] = &[
    "",
    "x",
    " x",
    "\n",
    "\n x",
    "\n\n",
    "\n\t \n",
    " \ny",
    "x\n\u{3000}\u{2003}z",
    "\u{85}\n",
    "\r\n v",
    "\n\u{A0}",
    "a:\n b",
    "é\né ",
    "\u{1680}x",
];

/// Writes `count` cases.
pub fn write(seed: u64, count: usize, output: &mut impl Write) -> io::Result<()> {
    let mut dice = Dice::new(seed);
    (0..count).try_for_each(|_| draft(&mut dice).case().write(output))
}

fn draft(dice: &mut Dice) -> Draft {
    let mut draft = Draft::plain(2, text(dice));
    if dice.once_in(3) {
        draft.text.push(b'\n');
        draft.appended_newline = true;
    }
    let hashes = dice.pick(&[0, 0, 1, 2]);
    (draft.style, draft.snippet) = (Some(hashes), Some(right_snippet(&draft, hashes)));
    furnish(dice, &mut draft);
    draft
}

/// Literals, placeholders and fields; at the end sometimes a placeholder that is not closed, or a
/// lone brace.
fn text(dice: &mut Dice) -> String {
    let mut text: String = (0..1 + dice.below(4)).map(|_| element(dice)).collect();
    match dice.below(8) {
        0 | 1 => text += &opened(dice),
        2 => text += &field(dice),
        3 => text += "}",
        _ => {}
    }
    text
}

fn element(dice: &mut Dice) -> String {
    match dice.below(6) {
        0 | 1 => dice.pick(LITERALS).to_owned(),
        2 | 3 => opened(dice) + "}",
        4 => field(dice) + "}",
        // Not closed: the next brace ends its text.
        _ => field(dice) + dice.pick(&["{{", "{}"]),
    }
}

/// A placeholder up to where its closing brace belongs.
fn opened(dice: &mut Dice) -> String {
    format!("{{{}", argument(dice, PLACES))
}

/// A placeholder with a field, which is read where its closing brace is missing.
fn field(dice: &mut Dice) -> String {
    let name = dice.pick(&["a", "name", "é"]);
    format!("{{{name}{}.{}", dice.pick(PLAIN), argument(dice, FIELDS))
}

/// A place, its whitespace, and mostly a colon and a text.
fn argument(dice: &mut Dice, places: &[&str]) -> String {
    let (place, plain) = (dice.pick(places), dice.pick(PLAIN));
    let colon = if dice.once_in(5) { String::new() } else { format!(":{}", dice.pick(TEXTS)) };
    format!("{place}{plain}{colon}")
}

/// Gives all the room there is; just what is needed; or one record too few for the lines, or for the
/// places.
fn furnish(dice: &mut Dice, draft: &mut Draft) {
    let [.., places, lines] = Answer::to(&draft.case()).counts.map(|needed| needed as u16);
    match dice.below(8) {
        0 | 1 => draft.rooms[3] = lines.saturating_sub(1),
        2 => draft.rooms[2] = places.saturating_sub(1),
        3 => [draft.rooms[2], draft.rooms[3]] = [places, lines],
        _ => draft.rooms = [LARGEST_ROOM; 4],
    }
}
