//! The placeholder reader for report templates, for Rust programs: what `rustc_parse_format` finds in a format string, from a library whose every answer is
//! proved. The records have the shape and the names that its users know, and own what they hold.
//!
//! ```
//! let parsed = nitarehpu::parse("{name}: {value:>10.3}", None, None, false, nitarehpu::ParseMode::Format)?;
//! assert_eq!(parsed.pieces.len(), 3);
//! assert!(parsed.errors.is_empty());
//! # Ok::<(), nitarehpu::Refused>(())
//! ```

pub mod raw;
mod records;
mod room;
mod upload;

pub use records::{
    Alignment, Argument, Count, DebugHex, FormatSpec, Numeral, ParseError, Piece, Position, Sign,
};

pub use upload::Upload;

use std::ops::Range;

/// Which grammar a text is read by.
#[derive(Clone, Copy, Debug, PartialEq, Eq)]
pub enum ParseMode {
    Format,
    InlineAsm,
    Diagnostic,
}

/// What a reading found. Spans are of the snippet, ranges of the text's bytes.
#[derive(Clone, Debug, Default, PartialEq, Eq)]
pub struct Parsed {
    pub pieces: Vec<Piece>,
    pub errors: Vec<ParseError>,
    pub arg_places: Vec<Range<usize>>,
    pub line_spans: Vec<Range<usize>>,
    /// How many arguments the pieces want: one more than the largest argument number in any place, width, precision or star, 0 if there is none. A number
    /// that is over range adds nothing, nor does a field met where a closing brace is missing.
    pub arguments: usize,
    /// How many characters were passed, those that were read a second time counted again: never more than twice the text's characters.
    pub moves: usize,
}

/// Why a text is not read.
#[derive(Clone, Copy, Debug, PartialEq, Eq)]
pub enum Refused {
    /// Above 255 hashes, or a snippet without a style.
    Style,
    /// The text is over 65,535 bytes, or the snippet over 66,048.
    Long,
    /// Of an `Upload` alone: its bytes are not UTF-8 from this place on.
    Utf8(usize),
    /// A newline is marked as appended, and the text does not end in one.
    Newline,
}

impl std::fmt::Display for Refused {
    fn fmt(&self, f: &mut std::fmt::Formatter<'_>) -> std::fmt::Result {
        f.write_str(match self {
            Refused::Utf8(place) => return write!(f, "the text is not UTF-8 from byte {place} on"),
            Refused::Style => "the style has more than 255 hashes, or a snippet comes without a style",
            Refused::Long => "the text is longer than 65,535 bytes, or the snippet than 66,048",
            Refused::Newline => "a newline is marked as appended, and the text does not end in one",
        })
    }
}

impl std::error::Error for Refused {}

/// Reads a text. The style is the number of hashes of a raw string, none for a text that has none; the snippet is the literal as it stands in the source.
pub fn parse(
    text: &str,
    style: Option<usize>,
    snippet: Option<&str>,
    append_newline: bool,
    mode: ParseMode,
) -> Result<Parsed, Refused> {
    let request = raw::Request {
        mode: mode as u8,
        style,
        snippet: snippet.map(str::as_bytes),
        newline: append_newline,
    };
    // Only source literals have places and lines, and those have a style.
    match style {
        None => room::with(text.len(), |pieces, errors| {
            let mut lists = raw::Lists { pieces, errors, places: &mut [], lines: &mut [] };
            let answer = raw::read(text.as_bytes(), request, &mut lists);
            accepted(answer)?;
            Ok(parsed(text, answer, &lists))
        }),
        Some(_) => {
            let needed = raw::count(text.as_bytes(), request);
            accepted(needed)?;
            let mut pieces = vec![0; raw::PIECE * needed.pieces];
            let mut errors = vec![0; raw::ERROR * needed.errors];
            let mut places = vec![0; 2 * needed.places];
            let mut lines = vec![0; 2 * needed.lines];
            let mut lists = raw::Lists { pieces: &mut pieces, errors: &mut errors, places: &mut places, lines: &mut lines };
            let answer = raw::read(text.as_bytes(), request, &mut lists);
            assert_eq!(answer, needed, "a reading needs what was counted");
            Ok(parsed(text, answer, &lists))
        }
    }
}

/// The verdict on a text that is to be a member template.
#[derive(Clone, Copy, Debug, PartialEq, Eq)]
pub enum Verdict {
    /// It is one.
    Yes,
    /// The first rule that it breaks, and the first piece that breaks it, counted from 0.
    Broken(Rule, usize),
}

/// The rules of member templates, in their order.
#[derive(Clone, Copy, Debug, PartialEq, Eq)]
pub enum Rule {
    /// The text has an error; the piece is 0.
    Error,
    /// A place is no name.
    Unnamed,
    /// A width or precision is taken from an argument, a star or a name.
    Taken,
    /// A second place is called `number`; or none is, and the piece is the number of pieces.
    Number,
    /// A place called `date` stands before the one called `number`.
    Date,
}

/// Whether a text is a member template: a Format text without error, whose places are all names, of which `number` is one, once, and `date` only after it, and
/// whose widths and precisions are written numbers.
///
/// ```
/// use nitarehpu::{Rule, Verdict, member};
/// assert_eq!(member("{number} of {date}"), Ok(Verdict::Yes));
/// assert_eq!(member("{moisture:.1} {date} {number}"), Ok(Verdict::Broken(Rule::Date, 2)));
/// ```
pub fn member(text: &str) -> Result<Verdict, Refused> {
    let request = raw::Request { mode: ParseMode::Format as u8, style: None, snippet: None, newline: false };
    let told = raw::member(text.as_bytes(), request);
    match (told.number, told.rule) {
        (0, 0) => Ok(Verdict::Yes),
        (0, 1) => Ok(Verdict::Broken(Rule::Error, told.piece)),
        (0, 2) => Ok(Verdict::Broken(Rule::Unnamed, told.piece)),
        (0, 3) => Ok(Verdict::Broken(Rule::Taken, told.piece)),
        (0, 4) => Ok(Verdict::Broken(Rule::Number, told.piece)),
        (0, 5) => Ok(Verdict::Broken(Rule::Date, told.piece)),
        (3, 0) => Err(Refused::Long),
        other => unreachable!("a string with no style is not told {other:?}"),
    }
}

/// A text's plain form.
#[derive(Clone, Debug, PartialEq, Eq)]
pub struct PlainForm {
    pub text: String,
    /// How many arguments its pieces want: as many as those of the text it was made of.
    pub arguments: usize,
}

/// Why a text has no plain form.
#[derive(Clone, Copy, Debug, PartialEq, Eq)]
pub enum NotPlain {
    /// The text is over 65,535 bytes.
    Long,
    /// The text is not read without error.
    Errors,
}

impl std::fmt::Display for NotPlain {
    fn fmt(&self, f: &mut std::fmt::Formatter<'_>) -> std::fmt::Result {
        f.write_str(match self {
            NotPlain::Long => "the text is longer than 65,535 bytes",
            NotPlain::Errors => "the text has errors",
        })
    }
}

impl std::error::Error for NotPlain {}

/// The plain form of a text without errors: one way to write all texts that say the same, so that two texts of one mode say the same exactly where their plain
/// forms are equal.
///
/// ```
/// use nitarehpu::{ParseMode::Format, plain_form};
/// let plain = plain_form("{007 :>08.02 }", Format)?;
/// assert_eq!(plain.text, "{7:>08.2}");
/// assert_eq!(plain.arguments, 8);
/// # Ok::<(), nitarehpu::NotPlain>(())
/// ```
pub fn plain_form(text: &str, mode: ParseMode) -> Result<PlainForm, NotPlain> {
    // A plain form is no longer than its text, so that the output is never too short.
    let mut output = vec![0; text.len()];
    let told = raw::plain(text.as_bytes(), mode as u8, &mut output);
    match told.number {
        0 => {
            output.truncate(told.bytes);
            let text = String::from_utf8(output).expect("a plain form is UTF-8");
            Ok(PlainForm { text, arguments: told.arguments })
        }
        3 => Err(NotPlain::Long),
        10 => Err(NotPlain::Errors),
        other => unreachable!("a string with a mode and an output of its length is not refused with {other}"),
    }
}

/// Whether a call is done. Its text is UTF-8, its mode is one, and its lists, the answer's too, have room, so the other refusals do not come.
fn accepted(answer: raw::Answer) -> Result<(), Refused> {
    match answer.number {
        0 => Ok(()),
        2 => Err(Refused::Style),
        3 => Err(Refused::Long),
        5 => Err(Refused::Newline),
        other => unreachable!("a string with a mode and lists with room are not refused with {other}"),
    }
}

/// The records of a call that is done, from the first numbers of its lists.
fn parsed(text: &str, answer: raw::Answer, lists: &raw::Lists<'_>) -> Parsed {
    let range = |ends: &[usize]| ends[0]..ends[1];
    Parsed {
        pieces: lists.pieces[..raw::PIECE * answer.pieces].chunks_exact(raw::PIECE).map(|words| records::piece(text, words)).collect(),
        errors: lists.errors[..raw::ERROR * answer.errors].chunks_exact(raw::ERROR).map(records::error).collect(),
        arg_places: lists.places[..2 * answer.places].chunks_exact(2).map(range).collect(),
        line_spans: lists.lines[..2 * answer.lines].chunks_exact(2).map(range).collect(),
        arguments: answer.arguments,
        moves: answer.moves,
    }
}
