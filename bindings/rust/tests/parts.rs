//! Texts that arrive in parts: every cutting of short texts and of texts about the limit is read as one call reads the joined text; states that no call left do no harm.

use nitarehpu::raw::{self, Answer, ERROR, LONGEST, Lists, PIECE, Request, State};
use nitarehpu::{ParseMode, Refused, Upload, parse};

const FORMAT: Request<'_> = Request { mode: 0, style: None, snippet: None, newline: false };

/// An answer, and what its lists hold.
#[derive(Debug, PartialEq, Eq)]
struct Outcome {
    answer: Answer,
    pieces: Vec<u32>,
    errors: Vec<u32>,
    places: Vec<usize>,
    lines: Vec<usize>,
}

/// A call with lists of so many records, which hold sevens before it.
fn with_lists(records: usize, call: impl FnOnce(&mut Lists<'_>) -> Answer) -> Outcome {
    let (mut pieces, mut errors) = (vec![7; PIECE * records], vec![7; ERROR * records]);
    let (mut places, mut lines) = (vec![7; 2 * records], vec![7; 2 * records]);
    let answer = call(&mut Lists { pieces: &mut pieces, errors: &mut errors, places: &mut places, lines: &mut lines });
    Outcome { answer, pieces, errors, places, lines }
}

fn whole(text: &[u8], request: Request<'_>, records: usize) -> Outcome {
    with_lists(records, |lists| raw::read(text, request, lists))
}

/// The parts taken into a buffer, and the finish.
fn in_parts<'a>(parts: impl IntoIterator<Item = &'a [u8]>, buffer: &mut [u8], request: Request<'_>, records: usize) -> Outcome {
    let mut state: State = [0; 3];
    for part in parts {
        assert_eq!(raw::part(&mut state, buffer, part), 0);
    }
    with_lists(records, |lists| raw::finish(&state, buffer, request, lists))
}

/// The parts of a text that is cut behind byte i where bit i of the mask is 1.
fn cut(text: &[u8], mask: usize) -> Vec<&[u8]> {
    let mut parts = vec![];
    let mut from = 0;
    for i in 1..text.len() {
        if mask >> (i - 1) & 1 == 1 {
            parts.push(&text[from..i]);
            from = i;
        }
    }
    parts.push(&text[from..]);
    parts
}

#[test]
fn every_cutting_of_every_short_text() {
    // ASCII of each sort, and the bytes of ø, of a letter of three bytes, of one of four, and one that is none
    let alphabet = [b'{', b'}', b':', b'a', b'0', 0xC3, 0xB8, 0xE2, 0x82, 0xAC, 0xF0, 0x9F, 0x98, 0x80, 0xFF, b'\n'];
    let mut buffer = vec![b'{'; LONGEST];
    let (mut texts, mut cuttings) = (0, 0);
    for length in 0..=4_u32 {
        for number in 0..alphabet.len().pow(length) {
            let text: Vec<u8> = (0..length).map(|i| alphabet[number / alphabet.len().pow(i) % alphabet.len()]).collect();
            for newline in [false, true] {
                let request = Request { newline, ..FORMAT };
                let expected = whole(&text, request, 4);
                for mask in 0..1_usize << text.len().saturating_sub(1) {
                    let parts = cut(&text, mask);
                    assert_eq!(in_parts(parts.iter().copied(), &mut buffer, request, 4), expected, "{text:02X?} cut by {mask:b}");
                    // with a part of no bytes before each, and one at the end
                    let spaced = parts.iter().flat_map(|&part| [&[][..], part]).chain([&[][..]]);
                    assert_eq!(in_parts(spaced, &mut buffer, request, 4), expected, "{text:02X?} cut by {mask:b}, spaced");
                    cuttings += 2;
                }
            }
            texts += 1;
        }
    }
    println!("{texts} texts, {cuttings} cuttings");
}

#[test]
fn texts_about_the_limit() {
    let mut buffer = vec![0; LONGEST + 100];
    for length in 65_530..=65_540 {
        for letter in ["a", "ø"] {
            let mut text = letter.repeat(length / letter.len()).into_bytes();
            text.resize(length, b'a');
            let expected = whole(&text, FORMAT, 2);
            assert_eq!(expected.answer.number, if length > LONGEST { 3 } else { 0 });
            for step in [1, 2, 3, 5, 4_096, 32_768, 65_534, 65_535, 65_536] {
                assert_eq!(in_parts(text.chunks(step), &mut buffer, FORMAT, 2), expected, "{length} bytes in parts of {step}");
            }
            // parts of no bytes at the end, and a mode that is none: 1 comes before 3
            let spaced = text.chunks(4_096).chain([&[][..], &[][..]]);
            assert_eq!(in_parts(spaced, &mut buffer, Request { mode: 3, ..FORMAT }, 2).answer.number, 1);
        }
    }
}

#[test]
fn sixteen_comes_first_and_changes_nothing() {
    for (state, room) in [([0, 0, 0], LONGEST - 1), ([LONGEST + 1, 0, 0], LONGEST), ([usize::MAX, usize::MAX, 7], LONGEST)] {
        let mut buffer = vec![9; room];
        let mut after: State = state;
        assert_eq!(raw::part(&mut after, &mut buffer, b"{}"), 16);
        assert_eq!(after, state);
        assert!(buffer.iter().all(|&byte| byte == 9));
        let refused = with_lists(2, |lists| raw::finish(&state, &buffer, Request { mode: 9, ..FORMAT }, lists));
        assert_eq!(refused.answer, Answer { number: 16, ..Answer::default() });
        assert!(refused.pieces.iter().chain(&refused.errors).all(|&word| word == 7));
        assert!(refused.places.iter().chain(&refused.lines).all(|&word| word == 7));
    }
}

#[test]
fn a_part_past_the_limit_is_remembered() {
    let mut buffer = vec![9; LONGEST];
    let mut state: State = [0; 3];
    assert_eq!(raw::part(&mut state, &mut buffer, &vec![b'a'; LONGEST]), 0);
    assert_eq!(state, [LONGEST, LONGEST, 0]);
    for part in [&b"b"[..], b"", b"b"] {
        assert_eq!(raw::part(&mut state, &mut buffer, part), 0);
        assert_eq!(state, [LONGEST, LONGEST, 1]);
    }
    assert!(buffer.iter().all(|&byte| byte == b'a'));
    assert_eq!(with_lists(1, |lists| raw::finish(&state, &buffer, FORMAT, lists)).answer.number, 3);
}

#[test]
fn forged_states_do_no_harm() {
    let mut buffer = vec![0xC3; LONGEST + 5];
    buffer[..4].copy_from_slice(b"{a}}");
    for count in [0, 1, 3, 4, 5, LONGEST - 1, LONGEST, LONGEST + 1, LONGEST + 5, LONGEST + 6, usize::MAX - 1, usize::MAX] {
        for valid in [0, 1, 2, 4, 5, LONGEST, LONGEST + 5, usize::MAX - 3, usize::MAX] {
            for over in [0, 1, 2, usize::MAX] {
                let mut state: State = [count, valid, over];
                let outcome = with_lists(8, |lists| raw::finish(&state, &buffer, FORMAT, lists));
                if count > buffer.len() {
                    assert_eq!(outcome.answer.number, 16);
                } else if over != 0 || count > LONGEST {
                    assert_eq!(outcome.answer.number, 3);
                } else if valid < count {
                    assert_eq!((outcome.answer.number, outcome.answer.place), (4, valid));
                } else {
                    assert!([0, 6, 7].contains(&outcome.answer.number), "{state:?}: {outcome:?}");
                }
                let mut after = buffer.clone();
                let number = raw::part(&mut state, &mut after, b"\xB8{");
                assert_eq!(number, if count > buffer.len() { 16 } else { 0 });
                if number == 16 {
                    assert_eq!(state, [count, valid, over]);
                } else if over != 0 || count > LONGEST - 2 {
                    assert_eq!(state, [count, valid, 1]);
                } else {
                    assert_eq!((state[0], state[2]), (count + 2, 0));
                    assert_eq!(after[count..count + 2], *b"\xB8{");
                    after[count..count + 2].copy_from_slice(&buffer[count..count + 2]);
                }
                assert!(after == buffer, "only the part is written");
            }
        }
    }
}

#[test]
fn an_upload_owns_its_buffer() {
    let mut upload = Upload::new();
    assert_eq!(upload.finish(None, None, false, ParseMode::Format), parse("", None, None, false, ParseMode::Format));
    upload.part(b"{a:>8}\n\xC3");
    assert_eq!(upload.finish(None, None, false, ParseMode::Format), Err(Refused::Utf8(7)));
    upload.part(b"\xB8\n");
    let text = "{a:>8}\nø\n";
    let literal = format!("r#\"{text}\"#");
    assert_eq!(upload.finish(Some(1), Some(&literal), false, ParseMode::Format), parse(text, Some(1), Some(&literal), false, ParseMode::Format));
    upload.part(&vec![b'a'; LONGEST]);
    assert_eq!(upload.finish(None, None, false, ParseMode::Format), Err(Refused::Long));
}
