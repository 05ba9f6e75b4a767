//! Joined texts: joins that are known by hand, and pairs of texts whose pieces the Rust reads as the
//! words say.

use oracle::joins::{Amount, Piece, Place, Sheet, join, pieces_of};
use oracle::make::every::Every;
use oracle::pairs::Tally;
use std::ops::Range;

const FORMAT: u8 = 0;
const ALIGNS: [&str; 3] = ["<", ">", "^"];

fn sheet(mode: u8, style: Option<u16>, text: &str) -> Sheet {
    Sheet::of(mode, style, text).expect("a text without errors")
}

/// The join of two texts in Format mode, with no style.
fn joined(first: &str, second: &str) -> Vec<Piece> {
    join(&sheet(FORMAT, None, first), &sheet(FORMAT, None, second))
}

/// A literal's bytes; of a placeholder its bytes, the number of its star and of its place, and the
/// place's span.
#[derive(Debug, PartialEq)]
enum Outline {
    Literal(Range<usize>),
    Numbers(Range<usize>, Option<usize>, Option<usize>, Range<usize>),
}

fn outline(pieces: &[Piece]) -> Vec<Outline> {
    let outline = |piece: &Piece| match piece {
        Piece::Literal(bytes) => Outline::Literal(bytes.clone()),
        Piece::Placeholder(it) => {
            let star = match it.precision {
                Amount::Star(number) => Some(number),
                _ => None,
            };
            let next = match it.place {
                Place::Next(number) => Some(number),
                _ => None,
            };
            Outline::Numbers(it.bytes.clone(), star, next, it.place_span.clone())
        }
    };
    pieces.iter().map(outline).collect()
}

#[test]
fn places_and_stars_are_raised_and_all_is_moved() {
    let expected = [
        Outline::Numbers(0..5, Some(0), Some(1), 2..2),
        Outline::Numbers(5..7, None, Some(2), 7..7),
        Outline::Literal(7..8),
        Outline::Numbers(8..13, Some(3), Some(4), 10..10),
    ];
    assert_eq!(outline(&joined("{:.*}{}", "a{:.*}")), expected);
}

#[test]
fn two_literals_become_one_unless_a_doubled_brace_starts_the_second() {
    assert_eq!(joined("a", "b"), [Piece::Literal(0..2)]);
    assert_eq!(joined("{{", "a"), [Piece::Literal(1..3)]);
    assert_eq!(joined("a", "{{b"), [Piece::Literal(0..1), Piece::Literal(2..4)]);
    assert_eq!(joined("}}", "}}"), [Piece::Literal(1..2), Piece::Literal(3..4)]);
    assert_eq!(
        joined("a{{", "b}}"),
        [Piece::Literal(0..1), Piece::Literal(2..4), Piece::Literal(5..6)]
    );
}

#[test]
fn an_empty_text_changes_nothing() {
    for text in ["", "a", "{{", "{:.*}", "{n:c>w$.5x?} b"] {
        let pieces = pieces_of(FORMAT, None, text).expect("a text without errors");
        assert_eq!(joined(text, ""), pieces);
        assert_eq!(joined("", text), pieces);
    }
}

#[test]
fn a_style_moves_the_spans_of_both_alike() {
    for mode in 0..=2 {
        for style in [None, Some(0), Some(3), Some(255)] {
            let (first, second) = (sheet(mode, style, "{:}"), sheet(mode, style, "a{n}"));
            assert_eq!(Some(join(&first, &second)), pieces_of(mode, style, "{:}a{n}"));
        }
    }
}

#[test]
fn the_premise_is_needed() {
    for align in ALIGNS {
        let text = format!("{{:}}{align}");
        assert_eq!(pieces_of(FORMAT, None, &text), None);
        for mode in [1, 2] {
            let (first, second) = (sheet(mode, None, "{:}"), sheet(mode, None, align));
            assert_eq!(Some(join(&first, &second)), pieces_of(mode, None, &text));
        }
    }
}

/// No counterexample, and something of each sort is compared.
fn assert_joined(tally: &Tally) {
    assert_eq!(tally.counterexamples, 0, "{:?}", tally.first);
    assert!(tally.within.iter().all(|&pairs| pairs > 0));
    assert!(tally.become_one > 0 && tally.stay_two > 0 && tally.raised > 0);
    assert_eq!(tally.outside_joined, 0);
}

#[test]
fn every_pair_of_short_texts_joins() {
    let every = Every::from_words("3", "{}:<a.*", "").expect("a length and an alphabet");
    let tally = Tally::of_every(&every);
    assert_joined(&tally);
    assert!(tally.outside > 0);
}

#[test]
fn random_pairs_join() {
    let tally = Tally::of_random(11, 50_000);
    assert_joined(&tally);
    assert_eq!(tally.within.iter().sum::<u64>() + tally.outside, 50_000);
    assert!(tally.outside > 100 && tally.raised > 5_000 && tally.stay_two > 1_000);
}
