//! What is known of the Rust's answers from reading it, each fact with its smallest texts. All
//! numbers here are written by hand.

use oracle::answer::Answer;
use oracle::listing::Listing;
use oracle::make::Draft;

const FORMAT: u8 = 0;
const ASM: u8 = 1;
const DIAGNOSTIC: u8 = 2;

/// The listing of one case, without its first line.
fn listing_of(draft: &Draft) -> String {
    let mut listing = Listing::default();
    listing.answer(&Answer::to(&draft.case()));
    let text = String::from_utf8(listing.bytes).expect("a listing is ASCII");
    text.strip_prefix("case 0\n").expect("a listing starts with its case").to_owned()
}

/// The lines of a plain text's listing that begin with a word.
fn records(mode: u8, text: &str, word: &str) -> Vec<String> {
    lines_with(&listing_of(&Draft::plain(mode, text)), word)
}

fn lines_with(listing: &str, word: &str) -> Vec<String> {
    let beginning = format!("{word} ");
    listing.lines().filter(|line| line.starts_with(&beginning)).map(str::to_owned).collect()
}

/// The kinds of the errors of a plain text, in the list's order.
fn kinds(mode: u8, text: &str) -> Vec<u8> {
    let kind = |line: &String| line.split(' ').nth(1).and_then(|kind| kind.parse().ok());
    records(mode, text, "err").iter().map(|line| kind(line).expect("a kind")).collect()
}

/// The places of the arguments of a plain text, as `next I`, `at I`, `over` or `name A B`.
fn places(mode: u8, text: &str) -> Vec<String> {
    let place = |line: &String| {
        line.split(" span ")
            .next()
            .map(|head| head.split(' ').skip(3).collect::<Vec<_>>().join(" "))
    };
    records(mode, text, "arg").iter().map(|line| place(line).expect("a place")).collect()
}

/// The type of the only argument of a plain text, as `A B SPAN`.
fn type_of(mode: u8, text: &str) -> String {
    let arguments = records(mode, text, "arg");
    let [argument] = &arguments[..] else { panic!("{text} has one argument") };
    argument.split(" type ").nth(1).expect("a type").to_owned()
}

/// A source literal without hashes.
fn source_literal(mode: u8, text: &str) -> Draft {
    let snippet = Some(format!("r\"{text}\"").into_bytes());
    Draft { style: Some(0), snippet, ..Draft::plain(mode, text) }
}

fn line_spans(mode: u8, text: &str) -> Vec<String> {
    lines_with(&listing_of(&source_literal(mode, text)), "line")
}

#[test]
fn the_type_in_diagnostic_mode_starts_after_the_colon_and_its_span_at_it() {
    assert_eq!(type_of(DIAGNOSTIC, "{:}"), "2 2 2..3");
    assert_eq!(type_of(DIAGNOSTIC, "{}"), "1 1 -");
    assert_eq!(type_of(DIAGNOSTIC, "{a: b }"), "3 6 3..7");
}

#[test]
fn diagnostic_mode_ends_lines_after_the_colon() {
    assert_eq!(line_spans(DIAGNOSTIC, "{:\n x}"), ["line 2..4", "line 6..8"]);
    assert_eq!(line_spans(DIAGNOSTIC, "{a.b:\nc}"), ["line 2..7", "line 8..10"]);
    assert_eq!(line_spans(DIAGNOSTIC, "{a.:\n"), ["line 2..6", "line 7..7"]);
    assert_eq!(line_spans(DIAGNOSTIC, "{a\n:x}"), ["line 2..8"]);
}

#[test]
fn kind_5_comes_after_a_plain_question_mark_only() {
    let faults = records(FORMAT, "{:?#}", "err");
    assert_eq!(faults[0], "err 5 4..5 second - quoted 3..4 suggestion 3..5 piece 0");
    assert_eq!(kinds(FORMAT, "{:?#}"), [5, 2, 1]);
    assert_eq!(kinds(FORMAT, "{:x?#}"), [2, 1]);
}

#[test]
fn kinds_9_and_12_come_with_a_colon_too() {
    assert_eq!(kinds(FORMAT, "{:a?}"), [9, 2, 1]);
    assert_eq!(kinds(FORMAT, "{:x+}"), [12, 2, 1]);
}

#[test]
fn a_question_mark_before_something_else_is_passed_silently() {
    assert_eq!(kinds(FORMAT, "{a?b}"), [2, 1]);
    assert_eq!(records(FORMAT, "{a?b}", "lit"), ["lit 3 4"]);
}

#[test]
fn kind_8_quotes_the_word_after_the_colon_even_if_empty() {
    let word = records(FORMAT, "{?:ab}", "err");
    assert_eq!(word[0], "err 8 2..3 second - quoted 3..5 suggestion - piece 0");
    let empty = records(FORMAT, "{?:}", "err");
    assert_eq!(empty[0], "err 8 2..3 second - quoted 3..3 suggestion - piece 0");
}

#[test]
fn a_field_needs_a_spec_equal_to_the_default() {
    assert_eq!(kinds(FORMAT, "{a: .b}"), [13, 2]);
    assert_eq!(type_of(FORMAT, "{a: .b}"), "3 3 -");
    assert!(!kinds(FORMAT, "{a:.b}").contains(&13));
    assert_eq!(kinds(ASM, "{a:.b}"), [13, 2]);
    assert_eq!(kinds(FORMAT, "{a.0}"), [14, 2]);
}

#[test]
fn no_whitespace_is_skipped_after_a_field() {
    assert!(!kinds(FORMAT, "{a.b:x }").contains(&13));
    assert!(kinds(FORMAT, "{a.b:x}").contains(&13));
}

#[test]
fn a_nameless_field_and_its_star_are_counted() {
    assert_eq!(places(FORMAT, "{a.}{}"), ["name 1 2", "next 1"]);
    assert_eq!(places(FORMAT, "{a.:.*}{}"), ["name 1 2", "next 2"]);
}

#[test]
fn the_type_of_one_character_is_that_character_without_a_span() {
    assert_eq!(type_of(FORMAT, "{:?}"), "2 3 -");
    assert_eq!(type_of(FORMAT, "{:x?}"), "3 4 -");
    assert_eq!(type_of(FORMAT, "{:é>+#05.a$X?}"), "13 14 -");
    assert_eq!(type_of(FORMAT, "{日 :x}"), "6 7 -");
}

#[test]
fn an_empty_type_is_where_reading_stood() {
    assert_eq!(type_of(FORMAT, "{a  }"), "4 4 -");
    assert_eq!(type_of(FORMAT, "{:  }"), "2 2 -");
    assert_eq!(type_of(FORMAT, "{:.3 }"), "4 4 -");
    assert_eq!(type_of(ASM, "{a : }"), "4 4 -");
}

#[test]
fn spans_lack_the_quote_offset_at_the_end_of_the_text() {
    assert_eq!(
        records(FORMAT, "{_", "err")[0],
        "err 6 2..2 second - quoted - suggestion - piece 0"
    );
    assert_eq!(
        records(FORMAT, "{65536", "err")[0],
        "err 7 2..6 second - quoted 1..6 suggestion - piece 0"
    );
    assert_eq!(
        records(FORMAT, "{r#a", "err")[0],
        "err 4 2..4 second - quoted - suggestion 2..4 piece 0"
    );
}

/// The width and the precision of the only argument of a plain text, each as `COUNT SPAN`.
fn counts(text: &str) -> (String, String) {
    let arguments = records(FORMAT, text, "arg");
    let [argument] = &arguments[..] else { panic!("{text} has one argument") };
    let parts = argument.split(" width ").nth(1).and_then(|rest| rest.split(" type ").next());
    let (width, precision) = parts.and_then(|both| both.split_once(" precision ")).expect("counts");
    (width.to_owned(), precision.to_owned())
}

#[test]
fn a_number_over_65535_is_listed_as_over_by_its_digits() {
    assert_eq!(
        places(FORMAT, "{65535}{65536}{131072}{00065535}{0065536}"),
        ["at 65535", "over", "over", "at 65535", "over"]
    );
    assert_eq!(
        places(FORMAT, &format!("{{{}}}{{{}7}}", "9".repeat(40), "0".repeat(40))),
        ["over", "at 7"]
    );
    assert_eq!(places(ASM, "{65536:x}"), ["over"]);
    assert_eq!(places(DIAGNOSTIC, "{ab}{65536:x}"), ["name 1 3", "over"]);
    let pair = |width: &str, precision: &str| (width.to_owned(), precision.to_owned());
    assert_eq!(counts("{:65536}"), pair("fixed over 3..8", "implied -"));
    assert_eq!(counts("{:065536$}"), pair("arg over 4..10", "implied -"));
    assert_eq!(counts("{:.65536}"), pair("implied -", "fixed over 3..9"));
    assert_eq!(counts("{:7.99999$}"), pair("fixed 7 3..4", "arg over 4..11"));
    assert_eq!(counts("{:0$.65535$}"), pair("arg 0 3..5", "arg 65535 5..12"));
}

#[test]
fn kinds_7_and_14_of_large_numbers() {
    assert_eq!(kinds(FORMAT, "{a.65536}"), [14, 2, 7]);
    assert_eq!(kinds(FORMAT, "{0.65536}"), [2, 1]);
    assert_eq!(kinds(FORMAT, "{065536$}"), [7, 2, 1]);
    assert_eq!(kinds(FORMAT, "{65536:65536$.65536}"), [7, 7, 7]);
}

#[test]
fn front_errors_stand_in_reverse_and_back_errors_follow() {
    assert_eq!(kinds(FORMAT, "{a,}}{a=}}"), [10, 15, 2, 2]);
}

#[test]
fn an_error_has_the_number_of_pieces_before_its_own() {
    let before = |line: &String| line.rsplit(' ').next().and_then(|piece| piece.parse().ok());
    let pieces = |text| -> Vec<usize> {
        records(FORMAT, text, "err").iter().map(|line| before(line).expect("a number")).collect()
    };
    assert_eq!(pieces("{foo?}"), [0, 0, 1]);
    assert_eq!(pieces("{:x5}"), [0, 2]);
    assert_eq!(pieces("{a.b}{c.d}"), [1, 0, 0, 1]);
    assert_eq!(pieces("x{_}"), [1]);
}

#[test]
fn a_source_literal_is_the_built_string_exactly() {
    let matching = Draft {
        style: Some(1),
        snippet: Some(b"r#\"{}\"#".to_vec()),
        ..Draft::plain(FORMAT, "{}")
    };
    assert_eq!(lines_with(&listing_of(&matching), "place"), ["place 3..5"]);
    assert_eq!(lines_with(&listing_of(&matching), "line"), ["line 3..5"]);
    let newline = Draft { text: b"{}\n".to_vec(), appended_newline: true, ..matching.clone() };
    assert_eq!(lines_with(&listing_of(&newline), "line"), ["line 3..5", "line 6..5"]);
    for snippet in ["r#\"{}\"", "r\"{}\"#", "r#\"{}\n\"#", "R#\"{}\"#", "r#\"{}\"##"] {
        let other = Draft { snippet: Some(snippet.into()), ..matching.clone() };
        assert!(lines_with(&listing_of(&other), "line").is_empty(), "{snippet}");
    }
}

#[test]
fn a_snippet_that_is_too_short_or_not_utf8_ends_at_its_length() {
    for snippet in [&b""[..], b"r", b"r#\"", b"\xFF\xFF\xFF\xFF\xFF\xFF\xFF\xFF\xFF\xFF"] {
        let draft =
            Draft { style: Some(1), snippet: Some(snippet.to_vec()), ..Draft::plain(FORMAT, "{") };
        let end = snippet.len();
        let fault = format!("err 3 {end}..{end} second 3..4 quoted - suggestion - piece 0");
        assert_eq!(lines_with(&listing_of(&draft), "err"), [fault]);
    }
}

#[test]
fn a_literal_may_have_one_line_more_than_a_text_has_bytes() {
    let draft = source_literal(FORMAT, &"\n".repeat(65_535));
    assert_eq!(listing_of(&draft), "answer 9 0 1 0 0 65536 arguments 0 moves 0\n");
}

#[test]
fn a_text_wants_one_argument_more_than_its_largest_number() {
    let texts = [
        ("", 0),
        ("{a}", 0),
        ("{:.*} {} {}", 4),
        ("{7}{}", 8),
        ("{:1$}", 2),
        ("{:7}", 1),
        ("{65535}", 65_536),
        ("{65536}", 0),
        ("{:65536$}", 1),
        ("{a.}", 0),
        ("{a.}{}", 2),
    ];
    for (text, wanted) in texts {
        let answer = lines_with(&listing_of(&Draft::plain(FORMAT, text)), "answer");
        assert!(answer[0].contains(&format!(" arguments {wanted} moves ")), "{text}");
    }
}

#[test]
fn the_rust_passes_a_word_twice_that_it_gives_back() {
    let texts = [
        (FORMAT, "", 0),
        (FORMAT, "}", 1),
        (FORMAT, "øø", 2),
        (FORMAT, "{:aaa}", 9),
        (FORMAT, "{:aaaa", 10),
        (FORMAT, "{:xaaaa}", 13),
        (FORMAT, "{a.b}", 5),
        (FORMAT, "{a.b:cc}", 10),
        (ASM, "{:aaa}", 6),
        (DIAGNOSTIC, "{:aaa}", 6),
    ];
    for (mode, text, moves) in texts {
        let answer = lines_with(&listing_of(&Draft::plain(mode, text)), "answer");
        assert!(answer[0].ends_with(&format!(" moves {moves}")), "{text}");
    }
}
