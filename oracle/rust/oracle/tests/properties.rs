//! Laws that every answer must keep, tried on random cases.

use oracle::agreement::{self, MODES};
use oracle::answer::Answer;
use oracle::case::{Case, Next, Stream};
use oracle::error_record::ErrorRecord;
use oracle::make::random::{self, Kind};
use oracle::ranges::type_range;
use oracle::reading::{PieceRecord, Reading};
use std::ops::Range;

/// Runs a check over the readings of random cases of these kinds.
fn for_readings(seed: u64, kinds: &[Kind], check: impl Fn(&Case<'_>, &Reading<'_>)) {
    let mut bytes = Vec::new();
    random::write(seed, 30_000, kinds, &mut bytes).expect("a vector takes all");
    let mut stream = Stream::new(&bytes[..]);
    while let Next::Case(case) = stream.next_case().expect("a slice can be read") {
        if let Some(reading) = &Answer::to(&case).reading {
            check(&case, reading);
        }
    }
}

/// What style, snippet and newline mark have no part in: the pieces' bytes, the types' bytes, the
/// errors' kinds and quotations.
type Outline = (Vec<Range<usize>>, Vec<(u8, Option<Range<usize>>)>);

fn outline(reading: &Reading<'_>) -> Outline {
    let pieces = reading.pieces.iter().flat_map(|piece| match piece {
        PieceRecord::Literal(bytes) => vec![bytes.clone()],
        PieceRecord::Argument(bytes, argument) => {
            vec![bytes.clone(), type_range(reading.text, bytes.start, argument)]
        }
    });
    let errors = reading.errors.iter().zip(&reading.pieces_before).map(|(error, &piece)| {
        let record = ErrorRecord::of(error, reading.text, reading.quote_offset, piece);
        (record.kind, record.quoted)
    });
    (pieces.collect(), errors.collect())
}

#[test]
fn style_snippet_and_newline_mark_change_only_spans_places_and_lines() {
    for_readings(11, &[Kind::Frame, Kind::Lines], |case, reading| {
        let plain = Case::plain(case.mode, case.text);
        let alone = Answer::to(&plain).reading.expect("there is room");
        assert_eq!(outline(reading), outline(&alone));
    });
}

#[test]
fn the_pieces_cover_the_text_up_to_the_end_or_a_lone_brace() {
    for_readings(12, &[], |_, reading| {
        let mut reached = 0;
        for piece in &reading.pieces {
            let bytes = match piece {
                PieceRecord::Literal(bytes) => bytes,
                PieceRecord::Argument(bytes, _) => bytes,
            };
            let doubled = bytes.start > reached;
            assert!(bytes.start == reached + usize::from(doubled) && bytes.start < bytes.end);
            assert!(!doubled || matches!(&reading.text[reached..][..2], "{{" | "}}"));
            reached = bytes.end;
        }
        let stopped = reading.errors.iter().any(|error| error.description.starts_with("unmatched"));
        assert_eq!(stopped, reading.text[reached..].starts_with('}'));
        assert!(stopped || reached == reading.text.len());
    });
}

#[test]
fn a_quoted_character_is_the_one_in_the_description() {
    for_readings(13, &[], |_, reading| {
        for error in &reading.errors {
            let record = ErrorRecord::of(error, reading.text, reading.quote_offset, 0);
            let Some(quoted) = record.quoted else { continue };
            let quoted = &reading.text[quoted];
            match record.kind {
                2 | 5 => {
                    assert!(error.description.ends_with(&format!("`{}`", quoted.escape_debug())))
                }
                7 => assert!(quoted.bytes().all(|byte| byte.is_ascii_digit())),
                8 => assert!(quoted.chars().all(rustc_lexer::is_id_continue)),
                11 => assert!(matches!(quoted, "<" | "^" | ">")),
                kind => panic!("kind {kind} quotes nothing"),
            }
        }
    });
}

#[test]
fn lists_are_no_longer_than_the_text_allows() {
    for_readings(14, &[], |case, reading| {
        let characters = reading.text.chars().count();
        let [pieces, errors, places, lines] = reading.counts();
        assert!(pieces <= characters && errors <= characters);
        assert!(places <= characters / 2 && lines <= characters + 1);
        assert!(case.snippet.is_some() || places + lines == 0);
    });
}

#[test]
fn a_text_without_errors_has_one_reading_and_the_pieces_are_it() {
    for_readings(15, &[Kind::Text, Kind::Lines], |case, reading| {
        let mode = MODES[usize::from(case.mode)];
        let agreed = agreement::readable(reading.text, mode);
        assert_eq!(agreed, Ok(reading.errors.is_empty()), "{:?} in {mode:?}", reading.text);
    });
}
