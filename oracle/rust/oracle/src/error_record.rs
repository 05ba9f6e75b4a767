//! An error of the Rust as it is recorded here (docs/RULES.md, section 7): a kind, spans, and what
//! is quoted as bytes.

use parse_format::{ParseError, Suggestion};
use std::ops::Range;

/// The parts of an error record.
pub struct ErrorRecord<'e> {
    pub kind: u8,
    pub span: &'e Range<usize>,
    pub second: Option<&'e Range<usize>>,
    pub quoted: Option<Range<usize>>,
    pub suggestion: Option<&'e Range<usize>>,
    /// How many pieces were listed when it was recorded.
    pub piece: usize,
}

impl<'e> ErrorRecord<'e> {
    /// The record of an error met in `text`, whose first byte has a span at `quote_offset`, after
    /// so many pieces.
    pub fn of(error: &'e ParseError, text: &str, quote_offset: usize, piece: usize) -> Self {
        let kind = kind(error);
        ErrorRecord {
            kind,
            span: &error.span,
            second: error.secondary_label.as_ref().map(|(_, span)| span),
            quoted: quoted(kind, error, text, quote_offset),
            suggestion: suggestion(&error.suggestion),
            piece,
        }
    }
}

/// Whether an error of this kind is put before those that are listed, and not behind them.
pub fn is_front(error: &ParseError) -> bool {
    matches!(kind(error), 4 | 5 | 8..=15)
}

/// The kind, by the suggestion where that is one kind's own (2, 5 and 9 share a description), else
/// by the description.
fn kind(error: &ParseError) -> u8 {
    match error.suggestion {
        Suggestion::RemoveRawIdent(_) => 4,
        Suggestion::ReorderFormatParameter(..) => 5,
        Suggestion::AddMissingColon(_) => 9,
        Suggestion::UseRustDebugPrintingMacro => 10,
        Suggestion::UsePositional | Suggestion::None => kind_described(&error.description),
    }
}

fn kind_described(description: &str) -> u8 {
    const BEGINNINGS: [(&str, u8); 11] = [
        ("expected `}`, found `", 2),
        ("unmatched `}` found", 1),
        ("expected `}` but string was terminated", 3),
        ("invalid argument name `_`", 6),
        (TOO_LARGE, 7),
        ("expected format parameter to occur after `:`", 8),
        ("expected alignment specifier after `:`", 11),
        ("the `+` sign flag must appear after `:`", 12),
        ("field access isn't supported", 13),
        ("tuple index access isn't supported", 14),
        ("python's numeric grouping `,` is not supported", 15),
    ];
    let known = BEGINNINGS.iter().find(|(beginning, _)| description.starts_with(beginning));
    known.unwrap_or_else(|| panic!("an error of no known kind: {description}")).1
}

/// How the description of kind 7 begins; the digits and a backquote follow.
const TOO_LARGE: &str = "integer `";
/// What stands around the word in the note of kind 8.
const TRY: &str = "`?` comes after `:`, try `";
const INSTEAD: &str = ":?` instead";

/// The bytes that an error quotes. Its span starts at a character in every kind that quotes one,
/// never at the end of the text, so the span's start gives the byte.
fn quoted(kind: u8, error: &ParseError, text: &str, quote_offset: usize) -> Option<Range<usize>> {
    let start = match kind {
        2 | 5 | 7 | 11 => error.span.start - quote_offset,
        // The word after `?:`.
        8 => error.span.start - quote_offset + 2,
        _ => return None,
    };
    let length = match kind {
        7 => digits_in(&error.description).len(),
        8 => word_in(error.note.as_deref().unwrap_or_default()).len(),
        _ => text[start..].chars().next().map_or(0, char::len_utf8),
    };
    Some(start..start + length)
}

/// The digits that kind 7 quotes in its description.
fn digits_in(description: &str) -> &str {
    let digits = description.strip_prefix(TOO_LARGE).and_then(|rest| rest.split('`').next());
    digits.expect("the description of kind 7 quotes its digits")
}

/// The word that kind 8 quotes in its note, perhaps empty.
fn word_in(note: &str) -> &str {
    let word = note.strip_prefix(TRY).and_then(|rest| rest.strip_suffix(INSTEAD));
    word.expect("the note of kind 8 quotes its word")
}

fn suggestion(suggestion: &Suggestion) -> Option<&Range<usize>> {
    match suggestion {
        Suggestion::RemoveRawIdent(span)
        | Suggestion::ReorderFormatParameter(span, _)
        | Suggestion::AddMissingColon(span) => Some(span),
        Suggestion::None | Suggestion::UsePositional | Suggestion::UseRustDebugPrintingMacro => {
            None
        }
    }
}
