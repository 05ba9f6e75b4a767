//! What the unchanged Rust reads in a text, up to the first `None` of its iterator.

use crate::case::Case;
use crate::error_record::is_front;
use crate::ranges::range_of;
use parse_format::{Argument, ParseError, ParseMode, Parser, Piece};
use std::ops::Range;

/// A piece, with the bytes of the text that it stands for.
pub enum PieceRecord<'t> {
    Literal(Range<usize>),
    /// The bytes go from the opening brace to where reading stood afterwards.
    Argument(Range<usize>, Box<Argument<'t>>),
}

/// The four lists that the Rust fills, and what is needed to turn its spans into byte ranges.
pub struct Reading<'t> {
    pub text: &'t str,
    /// What a span has more than the byte place of its character.
    pub quote_offset: usize,
    pub pieces: Vec<PieceRecord<'t>>,
    pub errors: Vec<ParseError>,
    /// For each error, how many pieces were listed when it was recorded.
    pub pieces_before: Vec<usize>,
    pub places: Vec<Range<usize>>,
    pub lines: Vec<Range<usize>>,
}

impl<'t> Reading<'t> {
    /// Reads the text of a case that is not refused for its mode, style, snippet or newline.
    pub fn of(case: &Case<'_>, text: &'t str) -> Self {
        let style = case.style.map(usize::from);
        let snippet = case.snippet.map(snippet_for_the_rust);
        let mut parser =
            Parser::new(text, style, snippet, case.appended_newline, parse_mode(case.mode));
        let (pieces, pieces_before) = read_pieces(&mut parser, text);
        Reading {
            text,
            quote_offset: style.map_or(1, |hashes| hashes + 2),
            pieces,
            errors: parser.errors,
            pieces_before,
            places: parser.arg_places,
            lines: parser.line_spans,
        }
    }

    /// The records of each list.
    pub fn counts(&self) -> [usize; 4] {
        [self.pieces.len(), self.errors.len(), self.places.len(), self.lines.len()]
    }
}

/// How many characters the Rust passes in the text of such a case.
pub fn moves_of(case: &Case<'_>, text: &str) -> usize {
    let style = case.style.map(usize::from);
    let snippet = case.snippet.map(snippet_for_the_rust);
    let mode = match case.mode {
        0 => counted_format::ParseMode::Format,
        1 => counted_format::ParseMode::InlineAsm,
        2 => counted_format::ParseMode::Diagnostic,
        _ => unreachable!("a mode above 2 is refused"),
    };
    counted_format::moves(text, style, snippet, case.appended_newline, mode)
}

fn parse_mode(mode: u8) -> ParseMode {
    match mode {
        0 => ParseMode::Format,
        1 => ParseMode::InlineAsm,
        2 => ParseMode::Diagnostic,
        _ => unreachable!("a mode above 2 is refused"),
    }
}

/// The snippet as a string. One that is not UTF-8 can't match the text, so only its length counts:
/// it gives way to one of the same length that matches no raw string either.
fn snippet_for_the_rust(snippet: &[u8]) -> String {
    match std::str::from_utf8(snippet) {
        Ok(snippet) => snippet.to_owned(),
        Err(_) => "x".repeat(snippet.len()),
    }
}

/// The pieces, and for each error how many of them were listed before it: the parser is asked for
/// one piece at a time, and what it has recorded by then is new since the piece before.
fn read_pieces<'t>(parser: &mut Parser<'t>, text: &'t str) -> (Vec<PieceRecord<'t>>, Vec<usize>) {
    let mut pieces = Vec::new();
    let mut pieces_before = Vec::new();
    let mut fronts = 0;
    let mut start = 0;
    loop {
        let piece = parser.next();
        // Those of the front all stand before those of the back.
        let new_fronts = parser.errors.partition_point(is_front) - fronts;
        let new_backs = parser.errors.len() - pieces_before.len() - new_fronts;
        fronts += new_fronts;
        // What is put at the front moves the others, which keep their numbers.
        pieces_before.splice(0..0, std::iter::repeat_n(pieces.len(), new_fronts));
        pieces_before.extend(std::iter::repeat_n(pieces.len(), new_backs));
        let end = place(parser, text);
        pieces.push(match piece {
            Some(Piece::Lit(literal)) => PieceRecord::Literal(range_of(text, literal)),
            Some(Piece::NextArgument(argument)) => PieceRecord::Argument(start..end, argument),
            None => return (pieces, pieces_before),
        });
        start = end;
    }
}

/// The byte at which the parser stands.
fn place(parser: &Parser<'_>, text: &str) -> usize {
    parser.peek().map_or(text.len(), |(_, place, _)| place)
}
