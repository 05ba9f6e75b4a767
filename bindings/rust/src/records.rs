//! The records, and how they are had from the library's numbers (include/nitarehpu.h has the layout).

use std::ops::Range;

#[derive(Clone, Debug, PartialEq, Eq)]
pub enum Piece {
    /// A literal's text.
    Lit(String),
    /// An argument to be written.
    NextArgument(Box<Argument>),
}

#[derive(Clone, Debug, PartialEq, Eq)]
pub struct Argument {
    pub position: Position,
    pub position_span: Range<usize>,
    pub format: FormatSpec,
    /// The text's bytes from the opening brace to where reading stood afterwards.
    pub range: Range<usize>,
}

#[derive(Clone, Debug, PartialEq, Eq)]
pub enum Position {
    /// The next argument, and its number.
    ArgumentImplicitlyIs(usize),
    ArgumentIs(Numeral),
    ArgumentNamed(String),
}

/// A number that is written: itself, or over range where it is above 65,535. The original keeps the remainder of such a number, so that `{65536}` is argument 0.
#[derive(Clone, Copy, Debug, PartialEq, Eq)]
pub enum Numeral {
    Within(u16),
    Over,
}

#[derive(Clone, Debug, PartialEq, Eq)]
pub struct FormatSpec {
    pub fill: Option<char>,
    pub fill_span: Option<Range<usize>>,
    pub align: Alignment,
    pub sign: Option<Sign>,
    pub alternate: bool,
    pub zero_pad: bool,
    pub debug_hex: Option<DebugHex>,
    pub precision: Count,
    pub precision_span: Option<Range<usize>>,
    pub width: Count,
    pub width_span: Option<Range<usize>>,
    pub ty: String,
    pub ty_span: Option<Range<usize>>,
}

#[derive(Clone, Copy, Debug, PartialEq, Eq)]
pub enum Alignment {
    AlignLeft,
    AlignRight,
    AlignCenter,
    AlignUnknown,
}

#[derive(Clone, Copy, Debug, PartialEq, Eq)]
pub enum Sign {
    Plus,
    Minus,
}

#[derive(Clone, Copy, Debug, PartialEq, Eq)]
pub enum DebugHex {
    Lower,
    Upper,
}

#[derive(Clone, Debug, PartialEq, Eq)]
pub enum Count {
    CountIs(Numeral),
    CountIsName(String, Range<usize>),
    CountIsParam(Numeral),
    CountIsStar(usize),
    CountImplied,
}

/// What is wrong, by its number (1 to 15; include/nitarehpu.h has each in words), with its spans and the bytes of the text that a message would quote.
#[derive(Clone, Debug, PartialEq, Eq)]
pub struct ParseError {
    pub kind: u8,
    pub span: Range<usize>,
    pub secondary: Option<Range<usize>>,
    pub quoted: Option<Range<usize>>,
    pub suggestion: Option<Range<usize>>,
    /// How many pieces were listed when it was recorded: the number, from 0, of the placeholder in which it was found; of kind 1 the number of all pieces.
    pub piece: usize,
}

fn number(word: u32) -> usize {
    word as usize
}

fn range(words: &[u32]) -> Range<usize> {
    number(words[0])..number(words[1])
}

/// A mark of presence and the two ends after it.
fn maybe(words: &[u32]) -> Option<Range<usize>> {
    (words[0] == 1).then(|| range(&words[1..]))
}

fn part(text: &str, words: &[u32]) -> String {
    text[range(words)].to_owned()
}

/// A written number that is not over range.
fn within(word: u32) -> Numeral {
    Numeral::Within(u16::try_from(word).expect("a number within the range has 16 bits"))
}

/// The piece that 40 numbers tell.
pub fn piece(text: &str, words: &[u32]) -> Piece {
    if words[0] == 0 {
        return Piece::Lit(part(text, &words[1..]));
    }
    Piece::NextArgument(Box::new(Argument {
        position: position(text, &words[3..]),
        position_span: range(&words[6..]),
        format: spec(text, &words[8..]),
        range: range(&words[1..]),
    }))
}

fn position(text: &str, words: &[u32]) -> Position {
    match words[0] {
        0 => Position::ArgumentImplicitlyIs(number(words[1])),
        1 => Position::ArgumentIs(within(words[1])),
        3 => Position::ArgumentIs(Numeral::Over),
        _ => Position::ArgumentNamed(part(text, &words[1..])),
    }
}

fn spec(text: &str, words: &[u32]) -> FormatSpec {
    FormatSpec {
        fill: (words[0] == 1).then(|| char::from_u32(words[1]).expect("a fill is a character of the text")),
        fill_span: (words[0] == 1).then(|| range(&words[2..])),
        align: [Alignment::AlignUnknown, Alignment::AlignLeft, Alignment::AlignRight, Alignment::AlignCenter][number(words[4])],
        sign: [None, Some(Sign::Plus), Some(Sign::Minus)][number(words[5])],
        alternate: words[6] == 1,
        zero_pad: words[7] == 1,
        width: count(text, &words[8..]),
        width_span: maybe(&words[13..]),
        precision: count(text, &words[16..]),
        precision_span: maybe(&words[21..]),
        ty: part(text, &words[24..]),
        debug_hex: [None, Some(DebugHex::Lower), Some(DebugHex::Upper)][number(words[26])],
        ty_span: maybe(&words[29..]),
    }
}

fn count(text: &str, words: &[u32]) -> Count {
    match words[0] {
        0 => Count::CountImplied,
        1 => Count::CountIs(within(words[1])),
        2 => Count::CountIsParam(within(words[1])),
        3 => Count::CountIsStar(number(words[1])),
        5 => Count::CountIs(Numeral::Over),
        6 => Count::CountIsParam(Numeral::Over),
        _ => Count::CountIsName(part(text, &words[1..]), range(&words[3..])),
    }
}

/// The error record that 16 numbers tell.
pub fn error(words: &[u32]) -> ParseError {
    ParseError {
        kind: u8::try_from(words[0]).expect("an error's kind is at most 15"),
        span: range(&words[1..]),
        secondary: maybe(&words[5..]),
        quoted: maybe(&words[9..]),
        suggestion: maybe(&words[13..]),
        piece: number(words[3]),
    }
}
