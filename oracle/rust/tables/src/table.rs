//! The three tables: White_Space, identifier start, identifier continuation.

/// Closed ranges.
type Ranges = &'static [(u32, u32)];

/// Identifier start and continuation, as the compiler's own lexer answers.
const IDENTIFIERS: (Ranges, Ranges) = identifiers::ranges!();

/// A set of characters as closed ranges.
pub struct Table {
    /// The name of its definition, and its heading in a listing.
    pub word: &'static str,
    /// The name of its constant.
    pub constant: &'static str,
    /// The name of the file that defines it.
    pub file: &'static str,
    /// What it holds, as a comment.
    pub comment: &'static str,
    /// Ascending, disjoint, maximal.
    pub ranges: Vec<(u32, u32)>,
    /// How many ranges and characters it is known to have.
    pub known: (usize, u32),
}

impl Table {
    /// The number of characters.
    pub fn size(&self) -> u32 {
        self.ranges.iter().map(|(low, high)| high - low + 1).sum()
    }

    /// The bounds, low and high in turn.
    pub fn numbers(&self) -> Vec<u32> {
        self.ranges.iter().flat_map(|&(low, high)| [low, high]).collect()
    }
}

/// The tables in the order in which they are listed, with the compiler's own identifiers.
pub fn compilers() -> [Table; 3] {
    of(IDENTIFIERS.0.to_vec(), IDENTIFIERS.1.to_vec())
}

/// The tables with these identifiers: start, then continuation.
pub fn of(start: Vec<(u32, u32)>, continuation: Vec<(u32, u32)>) -> [Table; 3] {
    [
        Table {
            word: "space",
            constant: "SPACE",
            file: "Space",
            comment: "White_Space: ten closed ranges, low and high bound in turn.",
            ranges: space_ranges(),
            known: (10, 25),
        },
        Table {
            word: "start",
            constant: "START",
            file: "Start",
            comment: "Identifier start, `_` or XID_Start: 692 closed ranges, low and high bound in turn.",
            ranges: start,
            known: (692, 145_894),
        },
        Table {
            word: "continue",
            constant: "CONTINUE",
            file: "Continue",
            comment: "Identifier continuation, XID_Continue: 806 closed ranges, low and high bound in turn.",
            ranges: continuation,
            known: (806, 149_221),
        },
    ]
}

/// The ten ranges of White_Space as docs/RULES.md lists them; `facts` asks the standard library.
fn space_ranges() -> Vec<(u32, u32)> {
    vec![
        (0x9, 0xD),
        (0x20, 0x20),
        (0x85, 0x85),
        (0xA0, 0xA0),
        (0x1680, 0x1680),
        (0x2000, 0x200A),
        (0x2028, 0x2029),
        (0x202F, 0x202F),
        (0x205F, 0x205F),
        (0x3000, 0x3000),
    ]
}
