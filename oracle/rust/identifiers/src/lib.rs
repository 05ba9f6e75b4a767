//! Asks the compiler that is compiling which characters may start or continue an identifier.
//!
//! `proc_macro::Ident::new` puts the question to the compiler's own lexer and panics when the
//! answer is no. `TokenStream::from_str` would not do: in error recovery it takes emoji too.

use proc_macro::{Ident, Span, TokenStream};
use std::panic::catch_unwind;

/// Expands to `(&[(low, high), ..], &[(low, high), ..])`: the characters that start an identifier and
/// those that continue one, as ascending, closed, maximal ranges.
#[proc_macro]
pub fn ranges(_: TokenStream) -> TokenStream {
    let start = ranges_where(|c| is_identifier(&c.to_string()));
    let continuation = ranges_where(|c| is_identifier(&format!("a{c}")));
    format!("(&{start:?}, &{continuation:?})").parse().expect("two slices of pairs")
}

/// Whether the compiler's lexer takes `word` as one identifier.
fn is_identifier(word: &str) -> bool {
    catch_unwind(|| Ident::new(word, Span::call_site())).is_ok()
}

/// The maximal ranges of scalar values that hold. The surrogates are no scalar values, so a range
/// ends before them.
fn ranges_where(holds: impl Fn(char) -> bool) -> Vec<(u32, u32)> {
    let mut ranges: Vec<(u32, u32)> = Vec::new();
    for c in ('\0'..=char::MAX).filter(|&c| holds(c)).map(u32::from) {
        match ranges.last_mut() {
            Some((_, high)) if *high + 1 == c => *high = c,
            _ => ranges.push((c, c)),
        }
    }
    ranges
}
