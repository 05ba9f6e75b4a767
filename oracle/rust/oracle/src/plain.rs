//! The plain form of a text, from the request's words and the Rust's own pieces, and what the words
//! say of it, looked at on each text: it is read without error, says the same, is its own plain
//! form and is no longer.

use crate::answer::readable_text;
use crate::case::Case;
use crate::reading::{PieceRecord, Reading};
use parse_format::{Alignment, Count, DebugHex, FormatSpec, Position, Sign};
use std::fmt::{self, Write};

/// What a call with an output of so many bytes must answer.
#[derive(Clone, Debug, PartialEq, Eq)]
pub enum Tidied {
    Written {
        plain: String,
        arguments: usize,
    },
    /// The number and the place of a refusal, and the bytes needed.
    Refused(u8, usize, usize),
}

impl fmt::Display for Tidied {
    fn fmt(&self, f: &mut fmt::Formatter<'_>) -> fmt::Result {
        match self {
            Tidied::Written { plain, arguments } => {
                write!(f, "answer 0 0 {} {arguments} ", plain.len())?;
                plain.bytes().try_for_each(|byte| write!(f, "{byte:02x}"))
            }
            Tidied::Refused(number, place, needed) => {
                write!(f, "answer {number} {place} {needed} 0")
            }
        }
    }
}

/// What the pieces of a text say, a line a piece: "literals, names and words compared by their text,
/// spans and byte ranges aside".
pub fn said(reading: &Reading<'_>) -> String {
    let mut out = String::new();
    for piece in &reading.pieces {
        match piece {
            PieceRecord::Literal(view) => {
                writeln!(out, "literal {:?}", &reading.text[view.clone()])
            }
            PieceRecord::Argument(_, argument) => {
                let FormatSpec { fill, align, sign, alternate, zero_pad, debug_hex, ty, .. } =
                    &argument.format;
                let marks = (fill, align, sign, alternate, zero_pad, debug_hex);
                let counts = (count(&argument.format.width), count(&argument.format.precision));
                writeln!(out, "argument {:?} {marks:?} {counts:?} {ty:?}", argument.position)
            }
        }
        .expect("a string can be written to");
    }
    out
}

/// A count as it is said: its kind, its number and its name.
fn count<'t>(count: &Count<'t>) -> (u8, usize, &'t str) {
    match *count {
        Count::CountImplied => (0, 0, ""),
        Count::CountIs(number) => (1, usize::from(number), ""),
        Count::CountIsName(name, _) => (2, 0, name),
        Count::CountIsParam(number) => (3, number, ""),
        Count::CountIsStar(number) => (4, number, ""),
    }
}

/// "writes its plain form: no optional whitespace, .."
fn plain_form(reading: &Reading<'_>) -> String {
    let mut out = String::new();
    for piece in &reading.pieces {
        match piece {
            // A doubled brace gives a literal that starts with it.
            PieceRecord::Literal(view) => {
                let text = &reading.text[view.clone()];
                out.extend(text.chars().next().filter(|&first| first == '{' || first == '}'));
                out.push_str(text);
            }
            PieceRecord::Argument(_, argument) => {
                let spec = plain_spec(&argument.format);
                out.push('{');
                match argument.position {
                    Position::ArgumentImplicitlyIs(_) => {}
                    // "no leading zeros in any place or count"
                    Position::ArgumentIs(number) => {
                        write!(out, "{number}").expect("a string can be written to")
                    }
                    Position::ArgumentNamed(name) => out.push_str(name),
                }
                // "no colon without a spec"
                if !spec.is_empty() {
                    out.push(':');
                    out.push_str(&spec);
                }
                out.push('}');
            }
        }
    }
    out
}

fn plain_spec(format: &FormatSpec<'_>) -> String {
    let mut out = String::new();
    out.extend(format.fill);
    out.push_str(match format.align {
        Alignment::AlignLeft => "<",
        Alignment::AlignRight => ">",
        Alignment::AlignCenter => "^",
        Alignment::AlignUnknown => "",
    });
    out.push_str(match format.sign {
        Some(Sign::Plus) => "+",
        Some(Sign::Minus) => "-",
        None => "",
    });
    out.push_str(if format.alternate { "#" } else { "" });
    // "a `0` flag is kept and is no part of the width"
    out.push_str(if format.zero_pad { "0" } else { "" });
    out.push_str(&plain_count(&format.width));
    // "no `.` without precision"
    if format.precision != Count::CountImplied {
        out.push('.');
        out.push_str(&plain_count(&format.precision));
    }
    out.push_str(match format.debug_hex {
        Some(DebugHex::Lower) => "x",
        Some(DebugHex::Upper) => "X",
        None => "",
    });
    out.push_str(format.ty);
    out
}

fn plain_count(count: &Count<'_>) -> String {
    match count {
        Count::CountImplied => String::new(),
        Count::CountIs(number) => number.to_string(),
        Count::CountIsName(name, _) => format!("{name}$"),
        Count::CountIsParam(number) => format!("{number}$"),
        Count::CountIsStar(_) => "*".to_owned(),
    }
}

/// A text that is accepted: its mode, what it says, and its plain form.
pub struct Accepted {
    pub mode: u8,
    pub said: String,
    pub plain: String,
    pub arguments: usize,
}

/// The text of a case in its mode, with no style, snippet or newline: accepted, or the refusal.
pub fn accepted(case: &Case<'_>) -> Result<Accepted, Tidied> {
    let bare = Case::plain(case.mode, case.text);
    let text = readable_text(&bare).map_err(|(number, place)| Tidied::Refused(number, place, 0))?;
    let reading = Reading::of(&bare, text);
    if !reading.errors.is_empty() {
        return Err(Tidied::Refused(10, 0, 0));
    }
    let (said, plain, arguments) = (said(&reading), plain_form(&reading), reading.arguments());
    looked_at(case.mode, text, &said, &plain, arguments);
    Ok(Accepted { mode: case.mode, said, plain, arguments })
}

/// "Reading the plain form gives the same pieces", "writing twice changes nothing".
fn looked_at(mode: u8, text: &str, what: &str, plain: &str, arguments: usize) {
    let again = Reading::of(&Case::plain(mode, plain.as_bytes()), plain);
    assert!(again.errors.is_empty(), "mode {mode}: {text:?} gives {plain:?}, which has errors");
    assert_eq!(
        said(&again),
        what,
        "mode {mode}: {text:?} gives {plain:?}, which says something else"
    );
    assert_eq!(
        again.arguments(),
        arguments,
        "mode {mode}: {text:?} gives {plain:?}, which wants others"
    );
    assert_eq!(
        plain_form(&again),
        plain,
        "mode {mode}: {text:?} gives {plain:?}, which is not plain"
    );
    assert!(plain.len() <= text.len(), "mode {mode}: {text:?} gives {plain:?}, which is longer");
}

impl Tidied {
    /// "after 1, 3 and 4, number 10 for a text with errors, then 11 when the output is too short";
    /// the output has as many bytes as the case has room for pieces.
    pub fn on(case: &Case<'_>) -> Self {
        match accepted(case) {
            Err(refused) => refused,
            Ok(Accepted { plain, .. }) if plain.len() > usize::from(case.rooms[0]) => {
                Tidied::Refused(11, 0, plain.len())
            }
            Ok(Accepted { plain, arguments, .. }) => Tidied::Written { plain, arguments },
        }
    }
}
