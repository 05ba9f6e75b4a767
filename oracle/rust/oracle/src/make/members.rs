//! Texts that are to be member templates (docs/RULES.md, section 13), rich in `number` and `date`:
//! whole ones, ones with one fault or a few, and soups of placeholders; some calls are refused.

use super::Draft;
use super::dice::Dice;
use super::frames::right_snippet;
use std::io::{self, Write};

/// Literal text, doubled braces among it.
const LITERALS: &[&str] =
    &["a", " ", " of ", "ø", "日\n", "{{", "}}", "{{b", ": ", "number", "date"];
/// Names that are neither of the two.
const OTHERS: &[&str] = &[
    "name", "moisture", "Number", "numbers", "numbe", "datum", "dates", "dat", "Date", "ø",
    "numbér", "n", "d", "number_", "_date", "x",
];
/// Places that are no names.
const UNNAMED: &[&str] = &["", "", "0", "1", "65535"];
/// What may stand behind a place in a member template.
const PLAIN: &[&str] = &[
    "", "", "", "", " ", ":", ":>8", ":*^6", ":8", ":.3", ":08.2", ":+#x?", ":?", ":e", ": >5 ",
    " :.",
];
/// Counts that are taken.
const TAKEN: &[&str] =
    &[":.*", ":w$", ":1$", ":.p$", ":.1$", ":0$", ":5.*", ":number$", ":.date$", ":w$.3"];
/// Errors, in a placeholder or beside one.
const WRONG: &[&str] = &[
    "{number",
    "{date",
    "}",
    "{r#number}",
    "{r#date}",
    "{number?}",
    "{date.x}",
    "{_}",
    "{65536}",
    "{number:.65536}",
    "{ number}",
    "{number,}",
    "{:}<",
    "{number=}",
    "{date.0}",
    "{number:x5}",
];

/// Writes `count` cases.
pub fn write(seed: u64, count: usize, output: &mut impl Write) -> io::Result<()> {
    let mut dice = Dice::new(seed);
    (0..count).try_for_each(|_| draft(&mut dice).case().write(output))
}

fn draft(dice: &mut Dice) -> Draft {
    let mut draft = Draft::plain(0, text(dice));
    if dice.once_in(16) {
        dress(dice, &mut draft);
    }
    draft
}

/// A style, a snippet or a mark, which change nothing; or grounds for refusals, one or more.
fn dress(dice: &mut Dice, draft: &mut Draft) {
    draft.mode = dice.pick_weighted(&[(0, 12), (1, 1), (2, 1), (3, 1), (255, 1)]);
    let hashes = dice.pick_weighted(&[(0, 4), (1, 2), (255, 1), (256, 1)]);
    if !dice.once_in(3) {
        draft.style = Some(hashes);
    }
    if dice.once_in(2) {
        draft.snippet = Some(right_snippet(draft, hashes));
    }
    if dice.once_in(4) {
        draft.text.push(b'\n');
    }
    draft.appended_newline = dice.once_in(4);
    if dice.once_in(8) {
        let at = dice.below(draft.text.len() + 1);
        draft.text.insert(at, dice.pick(&[0xFF, 0x80, 0xC3]));
    }
}

fn text(dice: &mut Dice) -> String {
    if dice.once_in(3) {
        return (0..dice.below(7)).map(|_| element(dice)).collect();
    }
    let mut parts = template(dice);
    for _ in 0..dice.pick(&[0, 0, 1, 1, 2]) {
        let fault = fault(dice);
        parts.insert(dice.below(parts.len() + 1), fault);
    }
    parts.concat()
}

/// A member template, in parts.
fn template(dice: &mut Dice) -> Vec<String> {
    let mut parts: Vec<String> = (0..dice.below(3)).map(|_| other(dice)).collect();
    parts.push(called(dice, "number", PLAIN));
    for _ in 0..dice.below(4) {
        let part = if dice.once_in(2) { called(dice, "date", PLAIN) } else { other(dice) };
        parts.push(part);
    }
    parts
}

/// What breaks a rule, mostly.
fn fault(dice: &mut Dice) -> String {
    match dice.below(8) {
        0 => dice.pick(WRONG).to_owned(),
        1 => called(dice, "number", PLAIN),
        2 | 3 => called(dice, "date", PLAIN),
        4 => placeholder(dice, UNNAMED, PLAIN),
        5 => placeholder(dice, UNNAMED, TAKEN),
        6 => placeholder(dice, OTHERS, TAKEN),
        _ => {
            let name = dice.pick(&["number", "date"]);
            called(dice, name, TAKEN)
        }
    }
}

fn element(dice: &mut Dice) -> String {
    match dice.below(8) {
        0 | 1 => other(dice),
        2 | 3 => called(dice, "number", PLAIN),
        4 | 5 | 6 => called(dice, "date", PLAIN),
        _ => fault(dice),
    }
}

/// Literal text, or a placeholder with another name.
fn other(dice: &mut Dice) -> String {
    if dice.once_in(2) { dice.pick(LITERALS).to_owned() } else { placeholder(dice, OTHERS, PLAIN) }
}

fn placeholder(dice: &mut Dice, places: &[&str], specs: &[&str]) -> String {
    let place = dice.pick(places);
    called(dice, place, specs)
}

fn called(dice: &mut Dice, place: &str, specs: &[&str]) -> String {
    format!("{{{place}{}}}", dice.pick(specs))
}
