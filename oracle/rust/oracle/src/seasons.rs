//! The season's count, from the request's words (docs/RULES.md, section 14) and the Rust's own
//! reading of each text.

use crate::case::Case;
use crate::error_record::ErrorRecord;
use crate::ranges::is_over;
use crate::reading::{PieceRecord, Reading};
use parse_format::{Argument, Count, Position};
use std::fmt;

/// The totals of a list of texts.
#[derive(Clone, Debug, Default, PartialEq, Eq)]
pub struct Totals {
    pub texts: u64,
    pub refused: u64,
    pub sound: u64,
    pub literal: u64,
    pub next: u64,
    pub at: u64,
    pub over: u64,
    pub named: u64,
    pub kinds: [u64; 15],
    pub stars: u64,
}

impl Totals {
    /// Those of a list, or nothing: "25 for too many texts or a list that breaks off or runs on".
    pub fn of(list: &[u8]) -> Option<Self> {
        let mut totals = Totals::default();
        let (count, mut rest) = two(list)?;
        if count > 10_000 {
            return None;
        }
        for _ in 0..count {
            let (length, behind) = two(rest)?;
            let (text, others) = behind.split_at_checked(length)?;
            totals.add(text);
            rest = others;
        }
        rest.is_empty().then_some(totals)
    }

    /// One text more.
    pub fn add(&mut self, text: &[u8]) {
        self.texts += 1;
        let Ok(text) = std::str::from_utf8(text) else {
            self.refused += 1;
            return;
        };
        let reading = Reading::of(&Case::plain(0, text.as_bytes()), text);
        self.sound += u64::from(reading.errors.is_empty());
        for piece in &reading.pieces {
            match piece {
                PieceRecord::Literal(_) => self.literal += 1,
                PieceRecord::Argument(bytes, argument) => {
                    self.add_argument(text, bytes.start, argument)
                }
            }
        }
        for error in &reading.errors {
            let kind = ErrorRecord::of(error, text, reading.quote_offset, 0).kind;
            self.kinds[usize::from(kind) - 1] += 1;
        }
    }

    fn add_argument(&mut self, text: &str, brace: usize, argument: &Argument<'_>) {
        match argument.position {
            Position::ArgumentImplicitlyIs(_) => self.next += 1,
            Position::ArgumentIs(_) if is_over(text, brace + 1) => self.over += 1,
            Position::ArgumentIs(_) => self.at += 1,
            Position::ArgumentNamed(_) => self.named += 1,
        }
        self.stars += u64::from(matches!(argument.format.precision, Count::CountIsStar(_)));
    }
}

/// "two bytes, low byte first", and what stands behind them.
fn two(bytes: &[u8]) -> Option<(usize, &[u8])> {
    let (number, behind) = bytes.split_first_chunk()?;
    Some((u16::from_le_bytes(*number).into(), behind))
}

impl fmt::Display for Totals {
    fn fmt(&self, f: &mut fmt::Formatter<'_>) -> fmt::Result {
        writeln!(f, "texts {}", self.texts)?;
        writeln!(f, "refused {}", self.refused)?;
        writeln!(f, "sound {}", self.sound)?;
        writeln!(f, "literal {}", self.literal)?;
        writeln!(f, "next {}", self.next)?;
        writeln!(f, "at {}", self.at)?;
        writeln!(f, "over {}", self.over)?;
        writeln!(f, "named {}", self.named)?;
        for (kind, total) in (1..).zip(self.kinds) {
            writeln!(f, "kind {kind} {total}")?;
        }
        writeln!(f, "stars {}", self.stars)
    }
}
