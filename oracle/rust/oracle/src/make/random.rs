//! Seeded random cases, of the kinds that are asked for.

use super::dice::Dice;
use super::{Draft, frames, limits, texts};
use crate::answer::Answer;
use crate::case::LARGEST_ROOM;
use std::io::{self, Write};

/// What a case is about.
#[derive(Clone, Copy, Debug, PartialEq, Eq)]
pub enum Kind {
    /// A text alone.
    Text,
    /// A style, a snippet of any sort, perhaps a newline mark.
    Frame,
    /// A source literal of several lines.
    Lines,
    /// Rooms at, one below and one above what is needed.
    Rooms,
    /// Bytes that are not UTF-8.
    Damaged,
    /// One or more grounds for refusals 1 to 5.
    Refused,
    /// Lengths and counts around the limits.
    Limits,
}

/// Every kind by its name, with its weight when none is asked for: of four thousand cases one is
/// about the limits, since such a case is as long as thousands of others.
pub const KINDS: &[(&str, Kind, usize)] = &[
    ("text", Kind::Text, 1_200),
    ("frame", Kind::Frame, 1_000),
    ("lines", Kind::Lines, 600),
    ("rooms", Kind::Rooms, 800),
    ("damaged", Kind::Damaged, 200),
    ("refused", Kind::Refused, 199),
    ("limits", Kind::Limits, 1),
];

/// Bytes that are not UTF-8: alone, cut short, longer than need be, surrogates, too high.
const ILL_FORMED: &[&[u8]] = &[
    b"\x80",
    b"\xBF",
    b"\xC0",
    b"\xC1\xBF",
    b"\xC3",
    b"\xC3\x28",
    b"\xE6\x97",
    b"\xE6",
    b"\xE0\x80\x80",
    b"\xE0\x9F\xBF",
    b"\xED\xA0\x80",
    b"\xED\xBF\xBF",
    b"\xF0\x9F\x98",
    b"\xF0\x8F\xBF\xBF",
    b"\xF0\x9F",
    b"\xF4\x90\x80\x80",
    b"\xF5\x80\x80\x80",
    b"\xF8",
    b"\xFE",
    b"\xFF",
];

/// The kind of that name.
pub fn kind_named(name: &str) -> Option<Kind> {
    KINDS.iter().find(|(known, ..)| *known == name).map(|&(_, kind, _)| kind)
}

/// Writes `count` cases of these kinds, or of all of them if none is named.
pub fn write(seed: u64, count: usize, kinds: &[Kind], output: &mut impl Write) -> io::Result<()> {
    let weighted: Vec<(Kind, usize)> = KINDS
        .iter()
        .filter(|(_, kind, _)| kinds.is_empty() || kinds.contains(kind))
        .map(|&(_, kind, weight)| (kind, weight))
        .collect();
    let mut dice = Dice::new(seed);
    for _ in 0..count {
        let kind = dice.pick_weighted(&weighted);
        draft(&mut dice, kind).case().write(output)?;
    }
    Ok(())
}

fn draft(dice: &mut Dice, kind: Kind) -> Draft {
    match kind {
        Kind::Text => Draft::plain(mode(dice), texts::text(dice)),
        Kind::Frame => framed(dice),
        Kind::Lines => source_literal(dice),
        Kind::Rooms => in_tight_rooms(dice),
        Kind::Damaged => damaged(dice),
        Kind::Refused => refused(dice),
        Kind::Limits => limits::case(dice),
    }
}

fn mode(dice: &mut Dice) -> u8 {
    dice.pick(&[0, 0, 0, 1, 2, 2])
}

fn framed(dice: &mut Dice) -> Draft {
    let mut draft = Draft::plain(mode(dice), texts::text(dice));
    if dice.once_in(3) {
        frames::mark_newline(dice, &mut draft);
    }
    if !dice.once_in(8) {
        frames::frame_anyhow(dice, &mut draft);
    }
    draft
}

fn source_literal(dice: &mut Dice) -> Draft {
    let text = if dice.once_in(3) { texts::text(dice) } else { texts::lines(dice) };
    let mut draft = Draft::plain(mode(dice), text);
    if dice.once_in(3) {
        frames::mark_newline(dice, &mut draft);
    }
    frames::frame_rightly(dice, &mut draft);
    draft
}

/// A case of any sort that is read, with rooms close to what it needs.
fn in_tight_rooms(dice: &mut Dice) -> Draft {
    let mut draft = match dice.below(3) {
        0 => Draft::plain(mode(dice), texts::text(dice)),
        1 => framed(dice),
        _ => source_literal(dice),
    };
    let needed = Answer::to(&draft.case()).counts;
    // Mostly one list is short, so that each of refusals 6 to 9 is met often.
    let short = dice.below(4);
    for (list, room) in draft.rooms.iter_mut().enumerate() {
        let needed = needed[list].min(LARGEST_ROOM.into()) as u16;
        let below = needed.saturating_sub(1);
        let ample = dice.pick(&[LARGEST_ROOM, LARGEST_ROOM + 1, u16::MAX]);
        *room = if list == short {
            dice.pick(&[below, below, needed, needed + 1, 0])
        } else {
            dice.pick(&[needed, needed, needed + 1, ample, ample, below])
        };
    }
    draft
}

/// A case with ill-formed bytes in its text, often at its end.
fn damaged(dice: &mut Dice) -> Draft {
    let mut draft = if dice.once_in(2) { framed(dice) } else { source_literal(dice) };
    let at = dice.below(draft.text.len() + 1);
    let at = if dice.once_in(3) { draft.text.len() } else { at };
    draft.text.splice(at..at, dice.pick(ILL_FORMED).iter().copied());
    draft
}

/// A case with one or more grounds for a refusal, so that their order shows.
fn refused(dice: &mut Dice) -> Draft {
    let mut draft = match dice.below(3) {
        0 => framed(dice),
        1 => damaged(dice),
        _ => in_tight_rooms(dice),
    };
    for _ in 0..1 + dice.below(2) {
        match dice.below(4) {
            0 => draft.mode = dice.pick(&[3, 4, 127, 128, 255]),
            1 => draft.style = Some(dice.pick(&[256, 257, 511, 512, 32_768, u16::MAX])),
            2 => (draft.style, draft.snippet) = (None, Some(b"\"a\"".to_vec())),
            _ => draft.appended_newline = true,
        }
    }
    draft
}
