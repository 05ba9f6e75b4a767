//! A stand-in for rustc_lexer: the two questions that the parser asks of it.
//!
//! ASCII is answered directly and the rest from a trie, as in the compiler, so that times taken
//! with this stand-in are fair. The ranges are the compiler's own (`oracle/tables`).

mod ranges;
mod trie;

use trie::{Bitmap, Trie, bitmap, distinct_blocks};

// Used only while compiling.
static START_BITS: Bitmap = bitmap(&ranges::START);
static CONTINUE_BITS: Bitmap = bitmap(&ranges::CONTINUE);

static START: Trie<{ distinct_blocks(&START_BITS) }> = Trie::new(&START_BITS);
static CONTINUE: Trie<{ distinct_blocks(&CONTINUE_BITS) }> = Trie::new(&CONTINUE_BITS);

/// Whether `c` may start an identifier: `_` or XID_Start.
#[inline]
pub fn is_id_start(c: char) -> bool {
    if c.is_ascii() { c == '_' || c.is_ascii_alphabetic() } else { START.contains(c) }
}

/// Whether `c` may continue an identifier: XID_Continue.
#[inline]
pub fn is_id_continue(c: char) -> bool {
    if c.is_ascii() { c == '_' || c.is_ascii_alphanumeric() } else { CONTINUE.contains(c) }
}
