//! Refusals 1 to 9 in their order, one ground more taken away at each step.

use oracle::answer::Answer;
use oracle::make::Draft;

/// The number, the place and the counts.
fn answer(draft: &Draft) -> (u8, usize, [usize; 4]) {
    let case = draft.case();
    let answer = Answer::to(&case);
    assert_eq!(answer.reading.is_some(), answer.number == 0);
    (answer.number, answer.place, answer.counts)
}

#[test]
fn refusals_come_in_the_order_of_the_table() {
    let needed = [2, 1, 0, 0];
    let mut draft = Draft {
        mode: 3,
        style: None,
        snippet: Some(vec![b'x'; 66_049]),
        appended_newline: true,
        rooms: [0; 4],
        text: b"a\xFF".to_vec(),
    };
    assert_eq!(answer(&draft), (1, 0, [0; 4]));
    draft.mode = 0;
    assert_eq!(answer(&draft), (2, 0, [0; 4]));
    draft.style = Some(256);
    assert_eq!(answer(&draft), (2, 0, [0; 4]));
    draft.style = Some(255);
    assert_eq!(answer(&draft), (3, 0, [0; 4]));
    draft.snippet = Some(vec![b'x'; 66_048]);
    assert_eq!(answer(&draft), (4, 1, [0; 4]));
    draft.text = b"a{".to_vec();
    assert_eq!(answer(&draft), (5, 0, [0; 4]));
    draft.appended_newline = false;
    assert_eq!(answer(&draft), (6, 0, needed));
    draft.rooms[0] = 2;
    assert_eq!(answer(&draft), (7, 0, needed));
    draft.rooms[1] = 1;
    assert_eq!(answer(&draft), (0, 0, needed));
}

#[test]
fn places_and_lines_are_counted_last() {
    let snippet = Some(b"r\"{}\"".to_vec());
    let mut draft = Draft { style: Some(0), snippet, ..Draft::plain(0, "{}") };
    draft.rooms = [1, 0, 0, 0];
    assert_eq!(answer(&draft), (8, 0, [1, 0, 1, 1]));
    draft.rooms = [1, 0, 1, 0];
    assert_eq!(answer(&draft), (9, 0, [1, 0, 1, 1]));
    draft.rooms = [1, 0, 1, 1];
    assert_eq!(answer(&draft), (0, 0, [1, 0, 1, 1]));
}

#[test]
fn texts_are_refused_from_one_byte_over_the_limit() {
    assert_eq!(answer(&Draft::plain(0, "a".repeat(65_535))), (0, 0, [1, 0, 0, 0]));
    assert_eq!(answer(&Draft::plain(0, "a".repeat(65_536))), (3, 0, [0; 4]));
}

#[test]
fn a_room_over_the_largest_counts_as_the_largest() {
    let most = Draft { rooms: [u16::MAX; 4], ..Draft::plain(0, "{}".repeat(1_024)) };
    assert_eq!(answer(&most), (0, 0, [1_024, 0, 0, 0]));
    let more = Draft { rooms: [u16::MAX; 4], ..Draft::plain(0, "{}".repeat(1_025)) };
    assert_eq!(answer(&more), (6, 0, [1_025, 0, 0, 0]));
}
