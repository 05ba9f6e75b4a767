//! A stand-in for rustc_literal_escaper: the one function that the parser names.
//!
//! The parser calls it only for a snippet without a style, and such a call is refused (refusal 2)
//! before the parser is made.

use std::ops::Range;

/// What an escape can be faulted for; there are no escapes here.
pub enum EscapeError {}

/// Never reached.
pub fn unescape_str(
    _literal: &str,
    _callback: impl FnMut(Range<usize>, Result<char, EscapeError>),
) {
    unreachable!("a snippet without a style is refused")
}
