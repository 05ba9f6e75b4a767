//! Cases around the limits: long texts and snippets, and lists that are just full.

use super::dice::Dice;
use super::frames::right_snippet;
use super::{Draft, texts};
use crate::case::LONGEST;

/// Lengths of texts at and around the limit.
const TEXT_LENGTHS: &[usize] = &[65_533, 65_534, 65_535, 65_536, 65_537, LONGEST];
/// Lengths of snippets at and around the limit.
const SNIPPET_LENGTHS: &[usize] = &[66_047, 66_048, 66_049, LONGEST];
/// What long texts are filled with. Nothing that puts an error at the front of its list: the Rust
/// moves all others for each of those, which takes seconds for a text of this length.
const FILLERS: &[&str] = &["a", "é", "日", "\n", "\n ", "{}", "{{", "{a:\n}", "{a ", "9"];
/// What fills a list, a record or two for each: literals, arguments, errors at the back and at the
/// front, lines.
const REPEATED: &[&str] = &["{{", "{}", "{}a", "{a ", "{_}", "{,", "{a?}}", "\n"];

/// A long text, a long snippet, or a list that is about as long as it may be.
pub fn case(dice: &mut Dice) -> Draft {
    match dice.below(4) {
        0 => long_snippet(dice),
        1 => full_list(dice),
        _ => long_text(dice),
    }
}

/// A text around the limit, often as a source literal with as many hashes as there may be, and
/// sometimes with a ground for refusal 4 or 5 at its end.
fn long_text(dice: &mut Dice) -> Draft {
    let length = dice.pick(TEXT_LENGTHS);
    let mut draft = Draft::plain(dice.below(3) as u8, filled(dice, length));
    match dice.below(6) {
        0 => draft.text[length - 1] = 0xFF,
        1 => draft.appended_newline = true,
        _ => draft.appended_newline = draft.text.ends_with(b"\n"),
    }
    if dice.once_in(2) {
        let hashes = dice.pick(&[0, 1, 255]);
        let mut snippet = right_snippet(&draft, hashes);
        snippet.truncate(LONGEST);
        (draft.style, draft.snippet) = (Some(hashes), Some(snippet));
    }
    draft
}

/// A text that is filled to `length` bytes around a random part.
fn filled(dice: &mut Dice, length: usize) -> Vec<u8> {
    let part = texts::text(dice);
    let filler = dice.pick(FILLERS);
    let room = length.saturating_sub(part.len());
    let before = dice.pick(&[0, room / 2, room]) / filler.len();
    let after = room / filler.len() - before;
    let mut text = filler.repeat(before) + &part + &filler.repeat(after);
    // What is left is shorter than a filler.
    while text.len() < length {
        text.push(' ');
    }
    text.into_bytes()
}

/// A snippet around the limit, which has nothing to do with its text.
fn long_snippet(dice: &mut Dice) -> Draft {
    let mut draft = Draft::plain(dice.below(3) as u8, texts::text(dice));
    draft.style = Some(dice.pick(&[0, 1, 255]));
    draft.snippet = Some(vec![b'x'; dice.pick(SNIPPET_LENGTHS)]);
    draft
}

/// A list with as many records as there is ever room for, or one more or less.
fn full_list(dice: &mut Dice) -> Draft {
    let times = dice.pick(&[511, 512, 513, 1_022, 1_023, 1_024, 1_025]);
    let text = dice.pick(REPEATED).repeat(times);
    let mut draft = Draft::plain(dice.below(3) as u8, text);
    if dice.once_in(2) {
        draft.style = Some(0);
        draft.snippet = Some(right_snippet(&draft, 0));
    }
    draft
}
