//! Random texts: soups of fragments, templates that are mostly clean, and templates with a fault.

use super::dice::Dice;

/// What a soup is made of.
const BRACES: &[&str] = &["{", "{", "{", "{", "}", "}", "}", "{{", "}}", "{}"];
const MARKS: &[&str] = &[
    ":", ":", ":", "?", "#", "=", ",", "+", "-", "<", ">", "^", ".", "*", "$", "_", "x", "X", "0",
    "1", "\"",
];
const BEGINNINGS: &[&str] =
    &["{:", "{:", "{a", "{a.", "{a.b}", "{a.0}", "{:?", "{r#", "{r#a", "{0", "{:0", "{:x"];
const PAIRS: &[&str] = &["?:", "?}", "=}", ".*", "0$", "a$", "x?", "X?", "r#", "r#_", "\r\n"];
const WORDS: &[&str] = &[
    "a", "b", "foo", "width", "x", "X", "xyz", "Xs", "e", "o", "r", "_", "_x", "é", "ø1", "日本",
    "a\u{301}", "𝒳", "r#a", "r#é",
];
/// Numbers around the largest that is kept, and around where its digits wrap.
const NUMBERS: &[&str] = &[
    "0", "1", "9", "10", "007", "65534", "65535", "65536", "65537", "99999", "131072", "655359",
    "655360", "0065535", "99999999",
];
/// Characters that only continue a word, digits that are no digits here, and none of either.
const OTHERS: &[&str] = &["\u{301}", "\u{200D}", "\u{663}", "²", "😀", "\u{FEFF}", "\0"];
const SPACES: &[&str] =
    &[" ", "  ", "\t", "\n", "\n  ", "\u{85}", "\u{A0}", "\u{2003}", "\u{3000}", " \u{2028}"];
const TYPES: &[&str] =
    &["?", "x?", "X?", "x", "X", "e", "o", "p", "_", "?#", "?x", "#?", "xyz", "日本"];
/// Fills, a brace and an align among them.
const FILLS: &[&str] = &["", "", "*", "0", "é", "日", "}", "{", "<", " "];
const ALIGNS: &[&str] = &["<", ">", "^"];
const LITERALS: &[&str] = &[
    "a", "text", " ", "\n", "\n  ", "\n\n", " b", "é ø", "\u{3000}", "{{", "}}", "{{ a", "}} b",
    "\"#",
];
/// Where a template may go wrong.
const FAULTS: &[&str] = &[
    "{", "}", ":", "?", "#", "x", ".", ",", "=", "+", "<", "$", "*", "_", "0", "65536", "r#", " ",
    "\n", "é", "?}", "=}",
];

/// A text for any purpose.
pub fn text(dice: &mut Dice) -> String {
    match dice.below(12) {
        0..5 => soup(dice),
        5..8 => template(dice),
        8..11 => faulty(dice),
        _ => (0..1 + dice.below(12)).map(|_| text(dice)).collect(),
    }
}

/// A text of several lines, with whitespace at their starts and placeholders that pass over them.
pub fn lines(dice: &mut Dice) -> String {
    const PARTS: &[(&str, usize)] = &[
        ("\n", 8),
        ("\n ", 5),
        ("\n\t\u{3000}", 2),
        (" ", 4),
        ("\u{2003}", 1),
        ("a", 5),
        ("日", 1),
        ("{}", 4),
        ("{a}", 3),
        ("{a\n:\n b}", 3),
        ("{: \n c}", 3),
        ("{a.b:\n d}", 2),
        ("{a.:\n", 1),
        ("{{\n", 2),
        ("}}\n ", 2),
        ("{", 1),
    ];
    (0..dice.below(12)).map(|_| dice.pick_weighted(PARTS)).collect()
}

fn soup(dice: &mut Dice) -> String {
    (0..dice.below(11)).map(|_| fragment(dice)).collect()
}

fn fragment(dice: &mut Dice) -> &'static str {
    let groups = [
        (BRACES, 9),
        (MARKS, 8),
        (BEGINNINGS, 3),
        (PAIRS, 3),
        (WORDS, 4),
        (NUMBERS, 2),
        (SPACES, 3),
        (OTHERS, 1),
    ];
    let group = dice.pick_weighted(&groups);
    dice.pick(group)
}

/// Literals and placeholders in turn, as a careful author writes them.
fn template(dice: &mut Dice) -> String {
    let mut text = String::new();
    for _ in 0..1 + dice.below(4) {
        if dice.once_in(2) {
            text += dice.pick(LITERALS);
        }
        text += &placeholder(dice);
    }
    text
}

/// A template in which one character is lost, changed or added.
fn faulty(dice: &mut Dice) -> String {
    let mut characters: Vec<String> = template(dice).chars().map(String::from).collect();
    let at = dice.below(characters.len());
    match dice.below(3) {
        0 => characters[at].clear(),
        1 => characters[at] = dice.pick(FAULTS).to_owned(),
        _ => characters[at] += dice.pick(FAULTS),
    }
    characters.concat()
}

fn placeholder(dice: &mut Dice) -> String {
    let place = match dice.below(8) {
        0..3 => "",
        3..6 => dice.pick(WORDS),
        _ => dice.pick(NUMBERS),
    };
    let spec = match dice.below(8) {
        0..3 => String::new(),
        3..7 => format!(":{}", spec(dice)),
        _ => format!(":{}", soup(dice).replace(['{', '}'], "")),
    };
    format!("{{{place}{}{spec}{}}}", space(dice), space(dice))
}

/// A Format spec; each part is there or not.
fn spec(dice: &mut Dice) -> String {
    let mut spec = String::new();
    if dice.once_in(3) {
        spec += dice.pick(FILLS);
        spec += dice.pick(ALIGNS);
    }
    for flag in ["+", "-", "#", "0"] {
        if dice.once_in(6) {
            spec += flag;
        }
    }
    if dice.once_in(3) {
        spec += &count(dice);
    }
    if dice.once_in(3) {
        spec += ".";
        spec += &if dice.once_in(3) { "*".to_owned() } else { count(dice) };
    }
    if dice.once_in(2) {
        spec += dice.pick(TYPES);
    }
    spec
}

/// A number or a word, mostly with its `$`.
fn count(dice: &mut Dice) -> String {
    match dice.below(6) {
        0 => String::new(),
        1..3 => dice.pick(NUMBERS).to_owned(),
        3 => format!("{}$", dice.pick(NUMBERS)),
        4 => format!("{}$", dice.pick(WORDS)),
        _ => dice.pick(WORDS).to_owned(),
    }
}

fn space(dice: &mut Dice) -> &'static str {
    if dice.once_in(5) { dice.pick(SPACES) } else { "" }
}
