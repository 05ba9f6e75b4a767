//! The verdict on a text that is to be a member template, from the request's words (docs/RULES.md,
//! section 13) and the Rust's own reading: places are looked for rule by rule, in all pieces.

use crate::answer::readable_text;
use crate::case::Case;
use crate::reading::{PieceRecord, Reading};
use parse_format::{Argument, Count, Position};
use std::fmt;

/// What the check says.
#[derive(Clone, Copy, Debug, PartialEq, Eq)]
pub enum Verdict {
    Yes,
    /// The first broken rule, and the first piece that breaks it.
    Broken(u8, usize),
    /// The number and the place of a refusal.
    Refused(u8, usize),
}

impl fmt::Display for Verdict {
    fn fmt(&self, f: &mut fmt::Formatter<'_>) -> fmt::Result {
        match self {
            Verdict::Yes => write!(f, "yes"),
            Verdict::Broken(rule, piece) => write!(f, "rule {rule} piece {piece}"),
            Verdict::Refused(number, place) => write!(f, "answer {number} {place}"),
        }
    }
}

impl Verdict {
    /// The verdict on a case. "Refusals: 1 to 5; mode 1 or 2 is refused as 17 after 1."
    pub fn on(case: &Case<'_>) -> Self {
        if case.mode == 1 || case.mode == 2 {
            return Verdict::Refused(17, 0);
        }
        match readable_text(case) {
            Err((number, place)) => Verdict::Refused(number, place),
            Ok(text) => Verdict::on_reading(&Reading::of(case, text)),
        }
    }

    /// "the first broken rule in the order just written"
    fn on_reading(reading: &Reading<'_>) -> Self {
        // "reads without error"; "0 for the error rule"
        if !reading.errors.is_empty() {
            return Verdict::Broken(1, 0);
        }
        let pieces = &reading.pieces;
        // "has only named places"
        if let Some(&piece) = those(pieces, |argument| name(argument).is_none()).first() {
            return Verdict::Broken(2, piece);
        }
        // "has no width or precision taken from an argument, star or name"
        let taken = |argument: &Argument<'_>| {
            is_taken(&argument.format.width) || is_taken(&argument.format.precision)
        };
        if let Some(&piece) = those(pieces, taken).first() {
            return Verdict::Broken(3, piece);
        }
        // "has the name "number" as a place exactly once"; "the number of pieces where "number" is
        // missing"; "A second "number" is the piece that breaks its rule."
        let number = match those(pieces, |argument| name(argument) == Some("number"))[..] {
            [] => return Verdict::Broken(4, pieces.len()),
            [one] => one,
            [_, second, ..] => return Verdict::Broken(4, second),
        };
        // "and has "date" only after it"
        let dates = those(pieces, |argument| name(argument) == Some("date"));
        match dates.into_iter().find(|&date| date <= number) {
            Some(piece) => Verdict::Broken(5, piece),
            None => Verdict::Yes,
        }
    }
}

/// The pieces, "counted from 0", that are placeholders of a sort.
fn those(pieces: &[PieceRecord<'_>], sort: impl Fn(&Argument<'_>) -> bool) -> Vec<usize> {
    let of_the_sort = pieces.iter().enumerate().filter(|(_, piece)| match piece {
        PieceRecord::Literal(_) => false,
        PieceRecord::Argument(_, argument) => sort(argument),
    });
    of_the_sort.map(|(piece, _)| piece).collect()
}

fn name<'t>(argument: &Argument<'t>) -> Option<&'t str> {
    match argument.position {
        Position::ArgumentNamed(name) => Some(name),
        Position::ArgumentIs(_) | Position::ArgumentImplicitlyIs(_) => None,
    }
}

fn is_taken(count: &Count<'_>) -> bool {
    match count {
        Count::CountIs(_) | Count::CountImplied => false,
        Count::CountIsName(..) | Count::CountIsParam(_) | Count::CountIsStar(_) => true,
    }
}
