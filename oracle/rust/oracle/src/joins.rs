//! Joined texts (docs/RULES.md, section 12): what the pieces of two texts without errors become when
//! the second is put behind the first. Written from the words alone, over the Rust's own pieces.

use crate::case::Case;
use crate::ranges::{range_of, type_range};
use crate::reading::{PieceRecord, Reading};
use parse_format::{Alignment, Argument, Count, DebugHex, Position, Sign};
use std::ops::Range;

/// A piece of the Rust's in which every part of the text is its bytes, so that it can be moved.
#[derive(Clone, Debug, PartialEq)]
pub enum Piece {
    Literal(Range<usize>),
    Placeholder(Box<Placeholder>),
}

#[derive(Clone, Debug, PartialEq)]
pub struct Placeholder {
    pub bytes: Range<usize>,
    pub place: Place,
    pub place_span: Range<usize>,
    pub fill: Option<char>,
    pub fill_span: Option<Range<usize>>,
    pub align: Alignment,
    pub sign: Option<Sign>,
    /// `#` and the flag `0`.
    pub flags: [bool; 2],
    pub hex: Option<DebugHex>,
    pub width: Amount,
    pub width_span: Option<Range<usize>>,
    pub precision: Amount,
    pub precision_span: Option<Range<usize>>,
    pub type_bytes: Range<usize>,
    pub type_span: Option<Range<usize>>,
}

#[derive(Clone, Debug, PartialEq)]
pub enum Place {
    Next(usize),
    At(usize),
    Named(Range<usize>),
}

#[derive(Clone, Debug, PartialEq)]
pub enum Amount {
    Implied,
    Fixed(u16),
    Argument(usize),
    Star(usize),
    /// The name's bytes, and its span.
    Named(Range<usize>, Range<usize>),
}

/// A text that the Rust reads without error, and its pieces.
#[derive(Clone, Debug, PartialEq)]
pub struct Sheet {
    pub text: String,
    pub pieces: Vec<Piece>,
}

impl Sheet {
    /// What the Rust reads in a text, with no snippet; nothing if there is an error.
    pub fn of(mode: u8, style: Option<u16>, text: &str) -> Option<Self> {
        Some(Sheet { pieces: pieces_of(mode, style, text)?, text: text.to_owned() })
    }
}

/// The Rust's pieces of a text, with no snippet; nothing if there is an error.
pub fn pieces_of(mode: u8, style: Option<u16>, text: &str) -> Option<Vec<Piece>> {
    let case = Case { style, ..Case::plain(mode, text.as_bytes()) };
    let reading = Reading::of(&case, text);
    let piece = |piece: &PieceRecord<'_>| match piece {
        PieceRecord::Literal(bytes) => Piece::Literal(bytes.clone()),
        PieceRecord::Argument(bytes, argument) => {
            Piece::Placeholder(Box::new(placeholder(text, bytes, argument)))
        }
    };
    reading.errors.is_empty().then(|| reading.pieces.iter().map(piece).collect())
}

fn placeholder(text: &str, bytes: &Range<usize>, argument: &Argument<'_>) -> Placeholder {
    let spec = &argument.format;
    Placeholder {
        bytes: bytes.clone(),
        place: match argument.position {
            Position::ArgumentImplicitlyIs(number) => Place::Next(number),
            Position::ArgumentIs(number) => Place::At(number),
            Position::ArgumentNamed(word) => Place::Named(range_of(text, word)),
        },
        place_span: argument.position_span.clone(),
        fill: spec.fill,
        fill_span: spec.fill_span.clone(),
        align: spec.align,
        sign: spec.sign,
        flags: [spec.alternate, spec.zero_pad],
        hex: spec.debug_hex,
        width: amount(text, &spec.width),
        width_span: spec.width_span.clone(),
        precision: amount(text, &spec.precision),
        precision_span: spec.precision_span.clone(),
        type_bytes: type_range(text, bytes.start, argument),
        type_span: spec.ty_span.clone(),
    }
}

fn amount(text: &str, count: &Count<'_>) -> Amount {
    match count {
        Count::CountImplied => Amount::Implied,
        Count::CountIs(number) => Amount::Fixed(*number),
        Count::CountIsParam(number) => Amount::Argument(*number),
        Count::CountIsStar(number) => Amount::Star(*number),
        Count::CountIsName(word, span) => Amount::Named(range_of(text, word), span.clone()),
    }
}

/// "In Format mode: the first text does not end in `:}`, or the second does not start with `<`, `>`
/// or `^`."
pub fn is_within(mode: u8, first: &str, second: &str) -> bool {
    mode != 0 || !first.ends_with(":}") || !second.starts_with(['<', '>', '^'])
}

/// "The pieces are the first's and then the second's, byte places and spans moved, with implicit
/// places and stars of the second raised by the number of both in the first. A final literal and an
/// opening one that starts with no doubled brace become one."
pub fn join(first: &Sheet, second: &Sheet) -> Vec<Piece> {
    let (bytes, numbers) = (first.text.len(), number_of_both(&first.pieces));
    let mut pieces = first.pieces.clone();
    for (index, piece) in second.pieces.iter().enumerate() {
        let piece = moved(piece, bytes, numbers);
        match (pieces.last_mut(), piece) {
            (Some(Piece::Literal(last)), Piece::Literal(opening))
                if index == 0 && !starts_with_doubled(&second.text) =>
            {
                last.end = opening.end;
            }
            (_, piece) => pieces.push(piece),
        }
    }
    pieces
}

/// Implicit places and stars.
pub fn number_of_both(pieces: &[Piece]) -> usize {
    let numbers = pieces.iter().map(|piece| match piece {
        Piece::Literal(_) => 0,
        Piece::Placeholder(it) => {
            usize::from(matches!(it.place, Place::Next(_)))
                + usize::from(matches!(it.width, Amount::Star(_)))
                + usize::from(matches!(it.precision, Amount::Star(_)))
        }
    });
    numbers.sum()
}

pub fn starts_with_doubled(text: &str) -> bool {
    text.starts_with("{{") || text.starts_with("}}")
}

/// A piece with its byte places and spans moved, and its own numbers raised.
fn moved(piece: &Piece, bytes: usize, numbers: usize) -> Piece {
    let range = |range: &Range<usize>| range.start + bytes..range.end + bytes;
    let span = |span: &Option<Range<usize>>| span.as_ref().map(range);
    let amount = |amount: &Amount| match amount {
        Amount::Star(number) => Amount::Star(number + numbers),
        Amount::Named(word, span) => Amount::Named(range(word), range(span)),
        other => other.clone(),
    };
    match piece {
        Piece::Literal(bytes) => Piece::Literal(range(bytes)),
        Piece::Placeholder(it) => Piece::Placeholder(Box::new(Placeholder {
            bytes: range(&it.bytes),
            place: match &it.place {
                Place::Next(number) => Place::Next(number + numbers),
                Place::At(number) => Place::At(*number),
                Place::Named(word) => Place::Named(range(word)),
            },
            place_span: range(&it.place_span),
            fill: it.fill,
            fill_span: span(&it.fill_span),
            align: it.align,
            sign: it.sign,
            flags: it.flags,
            hex: it.hex,
            width: amount(&it.width),
            width_span: span(&it.width_span),
            precision: amount(&it.precision),
            precision_span: span(&it.precision_span),
            type_bytes: range(&it.type_bytes),
            type_span: span(&it.type_span),
        })),
    }
}
