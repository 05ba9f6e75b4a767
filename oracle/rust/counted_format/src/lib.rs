//! How many characters the Rust passes: its own reading, each forward move of its index counted,
//! those over characters that it reads a second time included.

use std::cell::Cell;

mod counted {
    #![allow(dead_code, unused_imports, clippy::all)]
    include!(concat!(env!("OUT_DIR"), "/counted.rs"));
}

pub use counted::ParseMode;

thread_local! {
    static PASSED: Cell<usize> = const { Cell::new(0) };
}

/// Counts a move over so many characters.
fn passed(step: usize) {
    PASSED.set(PASSED.get() + step);
}

/// The moves of a reading up to the first `None` of the Rust's iterator.
pub fn moves(
    text: &str,
    style: Option<usize>,
    snippet: Option<String>,
    appended_newline: bool,
    mode: ParseMode,
) -> usize {
    PASSED.set(0);
    let parser = counted::Parser::new(text, style, snippet, appended_newline, mode);
    parser.for_each(drop);
    PASSED.get()
}
