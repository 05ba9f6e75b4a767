//! The others: the Rust itself, {fmt}'s own parser if it was built, and a loop that only sums the bytes.

use parse_format::{ParseMode, Parser, Piece};
use std::hint::black_box;

/// The Rust, as its users use it: a parser is made, and its pieces and errors are collected.
pub fn rust(text: &str) -> (usize, usize) {
    rust_as(text, ParseMode::Format)
}

/// The Rust on a text of InlineAsm mode.
pub fn rust_asm(text: &str) -> (usize, usize) {
    rust_as(text, ParseMode::InlineAsm)
}

fn rust_as(text: &str, mode: ParseMode) -> (usize, usize) {
    let mut parser = Parser::new(text, None, None, false, mode);
    let pieces: Vec<Piece<'_>> = parser.by_ref().collect();
    black_box(&pieces);
    black_box(&parser.errors);
    (pieces.len(), parser.errors.len())
}

/// The check for UTF-8 that the Rust's users make before they have a string to parse.
pub fn rust_utf8(text: &[u8]) -> bool {
    std::str::from_utf8(text).is_ok()
}

/// {fmt}'s parser with a handler that collects pieces; how many, or none where it stops at an error.
#[cfg(cpp_peer)]
pub fn cpp(text: &[u8]) -> Option<usize> {
    unsafe extern "C" {
        fn peer_fmt(text: *const u8, length: usize) -> isize;
    }
    // SAFETY: the pointer goes with its length, and the text is only read.
    let pieces = unsafe { peer_fmt(text.as_ptr(), text.len()) };
    usize::try_from(pieces).ok()
}

/// The same, with its list kept from text to text.
#[cfg(cpp_peer)]
pub fn cpp_kept(text: &[u8]) -> Option<usize> {
    unsafe extern "C" {
        fn peer_fmt_kept(text: *const u8, length: usize) -> isize;
    }
    // SAFETY: the pointer goes with its length, the text is only read, and one thread calls it.
    let pieces = unsafe { peer_fmt_kept(text.as_ptr(), text.len()) };
    usize::try_from(pieces).ok()
}

#[cfg(not(cpp_peer))]
pub fn cpp(_: &[u8]) -> Option<usize> {
    None
}

#[cfg(not(cpp_peer))]
pub fn cpp_kept(_: &[u8]) -> Option<usize> {
    None
}

/// The floor: each byte is looked at once.
pub fn sum(text: &[u8]) -> u64 {
    text.iter().map(|&b| u64::from(black_box(b))).sum()
}
