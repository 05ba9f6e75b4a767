//! The makers of cases: every short text, the bench, seeded random cases, notices, numbers, member
//! templates, and what the ways of reading hand to each other.

pub mod bench;
pub mod dice;
pub mod every;
pub mod frames;
pub mod lanes;
pub mod limits;
pub mod members;
pub mod notices;
pub mod numbers;
pub mod random;
pub mod texts;

use crate::case::{Case, LARGEST_ROOM};

/// A case that owns its bytes while it is being made.
#[derive(Clone, Debug)]
pub struct Draft {
    pub mode: u8,
    pub style: Option<u16>,
    pub snippet: Option<Vec<u8>>,
    pub appended_newline: bool,
    pub rooms: [u16; 4],
    pub text: Vec<u8>,
}

impl Draft {
    /// A text with nothing around it, and all the room there is.
    pub fn plain(mode: u8, text: impl Into<Vec<u8>>) -> Self {
        Draft {
            mode,
            style: None,
            snippet: None,
            appended_newline: false,
            rooms: [LARGEST_ROOM; 4],
            text: text.into(),
        }
    }

    pub fn case(&self) -> Case<'_> {
        Case {
            mode: self.mode,
            style: self.style,
            snippet: self.snippet.as_deref(),
            appended_newline: self.appended_newline,
            rooms: self.rooms,
            text: &self.text,
        }
    }
}
