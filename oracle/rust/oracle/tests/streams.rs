//! A stream gives back the cases that were written, and says when it breaks off.

use oracle::case::{LONGEST, Next, Stream};
use oracle::make::{Draft, bench, random};

fn draft() -> Draft {
    Draft {
        mode: 2,
        style: Some(258),
        snippet: Some(b"r\"ab\"".to_vec()),
        appended_newline: true,
        rooms: [1, 256, 65_535, 0],
        text: b"ab\n".to_vec(),
    }
}

fn bytes_of(drafts: &[Draft]) -> Vec<u8> {
    let mut bytes = Vec::new();
    for draft in drafts {
        draft.case().write(&mut bytes).expect("a vector takes all");
    }
    bytes
}

/// The number of whole cases, and whether the stream then breaks off.
fn outline(bytes: &[u8]) -> (usize, bool) {
    let mut stream = Stream::new(bytes);
    let mut cases = 0;
    loop {
        match stream.next_case().expect("a slice can be read") {
            Next::Case(_) => cases += 1,
            Next::End => return (cases, false),
            Next::Broken => return (cases, true),
        }
    }
}

#[test]
fn a_case_is_laid_out_as_documented() {
    let bytes = bytes_of(&[draft()]);
    let header = [2, 1, 2, 1, 1, 1, 1, 0, 0, 1, 255, 255, 0, 0, 5, 0, 0, 3, 0, 0];
    assert_eq!(bytes[..20], header);
    assert_eq!(&bytes[20..], b"r\"ab\"ab\n");
}

#[test]
fn a_case_comes_back_as_it_was_written() {
    let (draft, bytes) = (draft(), bytes_of(&[draft()]));
    let mut stream = Stream::new(&bytes[..]);
    let Next::Case(case) = stream.next_case().expect("a slice can be read") else {
        panic!("the stream has a case")
    };
    assert_eq!(case, draft.case());
}

#[test]
fn a_stream_may_break_off_anywhere_in_a_case() {
    let bytes = bytes_of(&[draft(), draft()]);
    let one = bytes.len() / 2;
    assert_eq!(outline(&bytes), (2, false));
    assert_eq!(outline(&bytes[..one]), (1, false));
    assert_eq!(outline(&[]), (0, false));
    for end in one + 1..bytes.len() {
        assert_eq!(outline(&bytes[..end]), (1, true));
    }
}

#[test]
fn a_stream_breaks_off_at_a_text_that_is_too_long() {
    let longest = Draft::plain(0, vec![b'a'; LONGEST]);
    let longer = Draft::plain(0, vec![b'a'; LONGEST + 1]);
    assert_eq!(outline(&bytes_of(&[longest.clone(), longest])), (2, false));
    assert_eq!(outline(&bytes_of(&[draft(), longer, draft()])), (1, true));
}

#[test]
fn the_bench_has_fifteen_cases() {
    assert_eq!(outline(&bytes_of(&bench::cases())), (15, false));
}

#[test]
fn a_seed_makes_the_same_cases_each_time() {
    let made = |seed| {
        let mut bytes = Vec::new();
        random::write(seed, 2_000, &[], &mut bytes).expect("a vector takes all");
        bytes
    };
    assert_eq!(made(1), made(1));
    assert_ne!(made(1), made(2));
    assert_eq!(outline(&made(1)), (2_000, false));
}
