//! Whether the Rust and the recogniser of the grammar agree on a text.

use crate::case::Case;
use crate::reading::{PieceRecord, Reading as RustReading};
use parse_format::{Alignment, Argument, DebugHex, FormatSpec, Position, Sign};
use recogniser::{Count, Element, Mode, Place, Reading, Spec, readings};

/// The modes in the order of their numbers.
pub const MODES: [Mode; 3] = [Mode::Format, Mode::InlineAsm, Mode::Diagnostic];

/// Whether the text can be read. They agree if the Rust records no error exactly when there is a
/// reading, there is only one, and the pieces are it. Otherwise it is a counterexample, in words.
pub fn readable(text: &str, mode: Mode) -> Result<bool, String> {
    let characters: Vec<char> = text.chars().collect();
    let rust = RustReading::of(&Case::plain(mode as u8, text.as_bytes()), text);
    let errors = rust.errors.len();
    match (&readings(&characters, mode)[..], errors) {
        ([], 1..) => Ok(false),
        ([], 0) => Err("no reading, but the Rust records no error".to_owned()),
        ([reading], 0) => {
            let pieces = elements(&rust);
            let differ = || format!("the reading is\n  {reading:?}\nthe pieces are\n  {pieces:?}");
            if *reading == pieces { Ok(true) } else { Err(differ()) }
        }
        ([reading], 1..) => Err(format!("a reading, but the Rust records {errors}: {reading:?}")),
        ([one, other, ..], _) => Err(format!("two readings:\n  {one:?}\n  {other:?}")),
    }
}

/// The Rust's pieces as elements.
fn elements(rust: &RustReading<'_>) -> Reading {
    let place = |byte: usize| rust.text[..byte].chars().count();
    let element = |piece: &PieceRecord<'_>| match piece {
        PieceRecord::Literal(bytes) => Element::Literal(place(bytes.start)..place(bytes.end)),
        PieceRecord::Argument(bytes, argument) => {
            let characters = place(bytes.start)..place(bytes.end);
            Element::Placeholder(characters, place_of(argument), spec_of(&argument.format))
        }
    };
    rust.pieces.iter().map(element).collect()
}

fn place_of(argument: &Argument<'_>) -> Place {
    match argument.position {
        Position::ArgumentImplicitlyIs(number) => Place::Next(number),
        Position::ArgumentIs(number) => Place::At(narrow(number)),
        Position::ArgumentNamed(word) => Place::Named(word.to_owned()),
    }
}

fn spec_of(format: &FormatSpec<'_>) -> Spec {
    Spec {
        fill: format.fill,
        align: match format.align {
            Alignment::AlignLeft => Some('<'),
            Alignment::AlignRight => Some('>'),
            Alignment::AlignCenter => Some('^'),
            Alignment::AlignUnknown => None,
        },
        sign: format.sign.map(|sign| match sign {
            Sign::Plus => '+',
            Sign::Minus => '-',
        }),
        alternate: format.alternate,
        zero: format.zero_pad,
        width: count_of(&format.width),
        precision: count_of(&format.precision),
        hex: format.debug_hex.map(|hex| match hex {
            DebugHex::Lower => 'x',
            DebugHex::Upper => 'X',
        }),
        ty: format.ty.to_owned(),
    }
}

fn count_of(count: &parse_format::Count<'_>) -> Count {
    match *count {
        parse_format::Count::CountImplied => Count::Implied,
        parse_format::Count::CountIs(number) => Count::Fixed(number),
        parse_format::Count::CountIsName(word, _) => Count::ByName(word.to_owned()),
        parse_format::Count::CountIsParam(number) => Count::ByArgument(narrow(number)),
        parse_format::Count::CountIsStar(number) => Count::ByStar(number),
    }
}

/// The number of a written place, which is read as a `u16`.
fn narrow(number: usize) -> u16 {
    number.try_into().expect("a number that passes 65,535 is an error")
}
