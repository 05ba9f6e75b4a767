//! What the Rust does not give and the text shows: where an argument's type stands, and which numbers
//! are over range.
//!
//! The Rust keeps a type as a string. A word is part of the text and shows by its address where it
//! stands; `?`, `x`, `X` and the empty word are constants, so their place is worked out from the
//! parts of the argument that stand before them. Of a number above 65,535 the Rust keeps the
//! remainder, so whether it is one is told by its digits.

use parse_format::{Alignment, Argument, Count, FormatSpec, Position};
use std::ops::Range;

/// The bytes that `part`, which is a part of `text`, takes up in it.
pub fn range_of(text: &str, part: &str) -> Range<usize> {
    let start = part.as_ptr().addr().wrapping_sub(text.as_ptr().addr());
    assert!(start <= text.len() && part.len() <= text.len() - start, "not a part of the text");
    start..start + part.len()
}

/// The bytes of an argument's type: the word's; those of the one character `?`, `x` or `X` (of the
/// `?` in `x?`); or none, where reading stood when it looked for a type. `brace` is the byte of
/// the argument's opening brace. In the modes without spec parts a type of one such character is
/// part of the text, and the same rule finds it after the colon.
pub fn type_range(text: &str, brace: usize, argument: &Argument<'_>) -> Range<usize> {
    let spec = &argument.format;
    match spec.ty {
        "" => empty_type(text, brace, argument),
        "?" | "x" | "X" => {
            let hex_letter = usize::from(spec.debug_hex.is_some());
            let start = spec_end(text, spec_start(text, brace, argument), spec) + hex_letter;
            start..start + 1
        }
        word => range_of(text, word),
    }
}

/// Whether the digits at a byte spell a number above 65,535.
pub fn is_over(text: &str, start: usize) -> bool {
    let digits = text[start..digits_end(text, start)].trim_start_matches('0');
    digits.len() > 5 || digits.parse().is_ok_and(|number: u32| number > 65_535)
}

/// Where reading stood when it found no type: after the place if there is no colon, else after
/// the parts of the spec. Without parts that is after the colon, in any mode.
fn empty_type(text: &str, brace: usize, argument: &Argument<'_>) -> Range<usize> {
    let colon = place_end(text, brace, argument);
    let end = if text[colon..].starts_with(':') {
        spec_end(text, colon + 1, &argument.format)
    } else {
        colon
    };
    end..end
}

/// The byte after the colon.
fn spec_start(text: &str, brace: usize, argument: &Argument<'_>) -> usize {
    place_end(text, brace, argument) + 1
}

/// The byte after the argument's place and the whitespace that belongs to it.
fn place_end(text: &str, brace: usize, argument: &Argument<'_>) -> usize {
    let end = match argument.position {
        Position::ArgumentImplicitlyIs(_) => brace + 1,
        Position::ArgumentIs(_) => digits_end(text, brace + 1),
        Position::ArgumentNamed(word) => range_of(text, word).end,
    };
    skip_while(text, end, char::is_whitespace)
}

/// The byte after a spec's parts up to the precision, when the first of them is at `start`.
fn spec_end(text: &str, start: usize, spec: &FormatSpec<'_>) -> usize {
    let flags =
        [spec.align != Alignment::AlignUnknown, spec.sign.is_some(), spec.alternate, spec.zero_pad];
    let fill = spec.fill.map_or(0, char::len_utf8);
    let width = start + fill + flags.iter().filter(|&&there| there).count();
    let point = count_end(text, width, &spec.width);
    if spec.precision_span.is_some() { count_end(text, point + 1, &spec.precision) } else { point }
}

/// The byte after a count that starts at `start`.
fn count_end(text: &str, start: usize, count: &Count<'_>) -> usize {
    match count {
        Count::CountImplied => start,
        Count::CountIs(_) => digits_end(text, start),
        Count::CountIsParam(_) => digits_end(text, start) + 1,
        Count::CountIsName(word, _) => range_of(text, word).end + 1,
        Count::CountIsStar(_) => start + 1,
    }
}

fn digits_end(text: &str, start: usize) -> usize {
    skip_while(text, start, |c| c.is_ascii_digit())
}

/// The byte of the first character from `start` on that doesn't hold, or the end.
fn skip_while(text: &str, start: usize, holds: impl Fn(char) -> bool) -> usize {
    text[start..].find(|c| !holds(c)).map_or(text.len(), |length| start + length)
}
