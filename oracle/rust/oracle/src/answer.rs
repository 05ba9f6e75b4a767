//! The answer to a case: refusals 1 to 9 (docs/RULES.md, section 2), or else what the Rust reads.

use crate::case::{Case, LARGEST_ROOM};
use crate::reading::{Reading, moves_of};

/// The largest numbers that are not refused.
const MOST_HASHES: u16 = 255;
const LONGEST_TEXT: usize = 65_535;
const LONGEST_SNIPPET: usize = 66_048;

/// The number (0 for done), the place, the counts, how many arguments the pieces want and how many
/// characters were passed (0 if refused), and the records if done.
pub struct Answer<'t> {
    pub number: u8,
    pub place: usize,
    pub counts: [usize; 4],
    pub arguments: usize,
    pub moves: usize,
    pub reading: Option<Reading<'t>>,
}

impl<'t> Answer<'t> {
    /// What a call with this case must answer.
    pub fn to(case: &Case<'t>) -> Self {
        let text = match readable_text(case) {
            Ok(text) => text,
            Err((number, place)) => {
                return Answer::refused(number, place, [0; 4]);
            }
        };
        let reading = Reading::of(case, text);
        let counts = reading.counts();
        match short_list(&counts, &case.rooms) {
            None => {
                let arguments = reading.arguments();
                let moves = moves_of(case, text);
                Answer { number: 0, place: 0, counts, arguments, moves, reading: Some(reading) }
            }
            Some(number) => Answer::refused(number, 0, counts),
        }
    }

    /// A refusal, which says nothing of arguments and moves.
    fn refused(number: u8, place: usize, counts: [usize; 4]) -> Self {
        Answer { number, place, counts, arguments: 0, moves: 0, reading: None }
    }
}

/// The text to read, or the first refusal of 1 to 5 with its place.
pub fn readable_text<'t>(case: &Case<'t>) -> Result<&'t str, (u8, usize)> {
    if case.mode > 2 {
        return Err((1, 0));
    }
    if case.style.is_some_and(|hashes| hashes > MOST_HASHES)
        || case.snippet.is_some() && case.style.is_none()
    {
        return Err((2, 0));
    }
    if case.text.len() > LONGEST_TEXT
        || case.snippet.is_some_and(|snippet| snippet.len() > LONGEST_SNIPPET)
    {
        return Err((3, 0));
    }
    let text = std::str::from_utf8(case.text).map_err(|error| (4, error.valid_up_to()))?;
    if case.appended_newline && !text.ends_with('\n') {
        return Err((5, 0));
    }
    Ok(text)
}

/// The refusal for the first list with less room than it needs: 6, 7, 8 or 9.
fn short_list(counts: &[usize; 4], rooms: &[u16; 4]) -> Option<u8> {
    let lists = counts.iter().zip(rooms);
    (6..).zip(lists).find_map(|(number, (&count, &room))| {
        let short = count > usize::from(room.min(LARGEST_ROOM));
        short.then_some(number)
    })
}
