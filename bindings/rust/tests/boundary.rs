//! What only the C boundary can show: refusals that safe callers never see, and that they change nothing.

use nitarehpu::raw::{self, ERROR, Lists, PIECE, Request};

/// The refusal of a call whose answer has no room: include/nitarehpu.h's NITAREHPU_NO_ANSWER.
const NO_ANSWER: u8 = 255;

unsafe extern "C" {
    fn nitarehpu_read(
        text: *const u8,
        text_length: usize,
        snippet: *const u8,
        snippet_length: usize,
        mode: u8,
        style: u8,
        hashes: usize,
        given: u8,
        newline: u8,
        pieces: *mut u32,
        pieces_length: usize,
        errors: *mut u32,
        errors_length: usize,
        places: *mut usize,
        places_length: usize,
        lines: *mut usize,
        lines_length: usize,
        answer: *mut usize,
        answer_length: usize,
    ) -> u8;

    fn nitarehpu_count(
        text: *const u8,
        text_length: usize,
        snippet: *const u8,
        snippet_length: usize,
        mode: u8,
        style: u8,
        hashes: usize,
        given: u8,
        newline: u8,
        answer: *mut usize,
        answer_length: usize,
    ) -> u8;
}

const FORMAT: Request<'_> = Request { mode: 0, style: None, snippet: None, newline: false };

#[test]
fn an_answer_without_room_is_refused_before_all_else() {
    // The mode is none either, but that is checked later.
    for mode in [0, 3] {
        for room in 0..8 {
            let text = b"{}";
            let (mut pieces, mut errors, mut answer) = ([7; 2 * PIECE], [7; 2 * ERROR], [7; 8]);
            // SAFETY: each pointer goes with a length that its array has; lists of length 0 are not touched.
            let (read, counted) = unsafe {
                (
                    nitarehpu_read(
                        text.as_ptr(),
                        text.len(),
                        std::ptr::null(),
                        0,
                        mode,
                        0,
                        0,
                        0,
                        0,
                        pieces.as_mut_ptr(),
                        pieces.len(),
                        errors.as_mut_ptr(),
                        errors.len(),
                        std::ptr::null_mut(),
                        0,
                        std::ptr::null_mut(),
                        0,
                        answer.as_mut_ptr(),
                        room,
                    ),
                    nitarehpu_count(text.as_ptr(), text.len(), std::ptr::null(), 0, mode, 0, 0, 0, 0, answer.as_mut_ptr(), room),
                )
            };
            assert_eq!((read, counted), (NO_ANSWER, NO_ANSWER));
            assert_eq!((pieces, errors, answer), ([7; 2 * PIECE], [7; 2 * ERROR], [7; 8]));
        }
    }
}

#[test]
fn a_refusal_changes_no_list() {
    let text = b"{}{a.b}";
    for (rooms, number) in [((0, 4), 6), ((1, 4), 6), ((2, 1), 7)] {
        let (mut pieces, mut errors) = (vec![7; PIECE * rooms.0], vec![7; ERROR * rooms.1]);
        let mut lists = Lists { pieces: &mut pieces, errors: &mut errors, places: &mut [], lines: &mut [] };
        let answer = raw::read(text, FORMAT, &mut lists);
        assert_eq!((answer.number, answer.place, answer.pieces, answer.errors), (number, 0, 2, 2));
        assert!(pieces.iter().chain(&errors).all(|&word| word == 7));
    }
}

#[test]
fn a_rest_that_is_no_whole_record_is_left_alone() {
    let (mut pieces, mut errors) = (vec![7; PIECE + PIECE - 1], vec![7; ERROR - 1]);
    let mut lists = Lists { pieces: &mut pieces, errors: &mut errors, places: &mut [], lines: &mut [] };
    assert_eq!(raw::read(b"{}", FORMAT, &mut lists).number, 0);
    assert!(pieces[PIECE..].iter().chain(&errors).all(|&word| word == 7));
    let mut lists = Lists { pieces: &mut pieces, errors: &mut errors, places: &mut [], lines: &mut [] };
    assert_eq!(raw::read(b"{}a", FORMAT, &mut lists).number, 6);
}

#[test]
fn bytes_that_are_no_text_are_refused_at_their_place() {
    let mut lists = Lists { pieces: &mut [], errors: &mut [], places: &mut [], lines: &mut [] };
    let answer = raw::read(b"ab\xFF{", FORMAT, &mut lists);
    assert_eq!((answer.number, answer.place), (4, 2));
}
