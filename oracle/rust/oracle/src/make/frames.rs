//! What stands around a text: styles, snippets that match and snippets that don't, newline marks.

use super::Draft;
use super::dice::Dice;

/// Numbers of hashes that are not refused.
const HASHES: &[(u16, usize)] = &[(0, 6), (1, 4), (2, 2), (3, 1), (254, 1), (255, 2)];

/// Marks the newline as appended, and mostly has it there.
pub fn mark_newline(dice: &mut Dice, draft: &mut Draft) {
    draft.appended_newline = true;
    if !dice.once_in(8) {
        draft.text.push(b'\n');
    }
}

/// Gives a style, and the snippet that matches.
pub fn frame_rightly(dice: &mut Dice, draft: &mut Draft) {
    let hashes = dice.pick_weighted(HASHES);
    draft.style = Some(hashes);
    draft.snippet = Some(right_snippet(draft, hashes));
}

/// Gives a style, and a snippet of any sort or none.
pub fn frame_anyhow(dice: &mut Dice, draft: &mut Draft) {
    frame_rightly(dice, draft);
    match dice.below(8) {
        0 => draft.snippet = None,
        1..3 => {}
        3..6 => nearly_right(dice, draft),
        6 => too_short(dice, draft),
        _ => not_utf8(dice, draft),
    }
}

/// `r`, hashes, quote, the text less an appended newline, quote, hashes.
pub fn right_snippet(draft: &Draft, hashes: u16) -> Vec<u8> {
    let body = match draft.text.split_last() {
        Some((b'\n', body)) if draft.appended_newline => body,
        _ => &draft.text,
    };
    let hashes = vec![b'#'; usize::from(hashes)];
    [b"r", &hashes[..], b"\"", body, b"\"", &hashes[..]].concat()
}

/// Changes one thing about a snippet, so that it no longer matches, or only just.
fn nearly_right(dice: &mut Dice, draft: &mut Draft) {
    let Draft { style: Some(hashes), snippet: Some(snippet), .. } = draft else {
        return;
    };
    let hashes = usize::from(*hashes);
    let last = snippet.len() - 1;
    match dice.below(9) {
        0 => snippet[0] = b'b',
        1 => snippet[1 + hashes] = b'\'',
        2 => snippet[last - hashes] = b'\'',
        3 => drop(snippet.remove(0)),
        4 => drop(snippet.remove(1 + dice.below(1 + hashes))),
        5 => drop(snippet.remove(last - dice.below(1 + hashes))),
        6 => snippet.insert(dice.below(last + 2), dice.pick(b"#\"r x\n")),
        7 => snippet.insert(last - hashes, b'\n'),
        _ => replace(dice, snippet, b"#\"rx \n"),
    }
}

/// Cuts a snippet so that it may no longer have room for its quotes.
fn too_short(dice: &mut Dice, draft: &mut Draft) {
    let Draft { style: Some(hashes), snippet: Some(snippet), .. } = draft else {
        return;
    };
    let least = 2 * usize::from(*hashes) + 3;
    let around_the_suffix = usize::from(*hashes) + dice.below(3);
    let length = if dice.once_in(2) { around_the_suffix } else { dice.below(least) };
    snippet.truncate(length);
}

/// Puts a byte into a snippet that no UTF-8 has.
fn not_utf8(dice: &mut Dice, draft: &mut Draft) {
    if let Some(snippet) = &mut draft.snippet {
        replace(dice, snippet, &[0x80, 0xC0, 0xFF]);
    }
}

fn replace(dice: &mut Dice, bytes: &mut [u8], by: &[u8]) {
    let at = dice.below(bytes.len());
    bytes[at] = dice.pick(by);
}
