//! The lines of Diagnostic source literals are those of docs/RULES.md, R6.10 to R6.14, worked out
//! here from the pieces alone; and the cases that are stored show each of these rules.

use oracle::answer::Answer;
use oracle::case::{Case, Next, Stream};
use oracle::make::notices;
use oracle::ranges::type_range;
use oracle::reading::{PieceRecord, Reading};
use std::ops::Range;

fn for_notices(seed: u64, count: usize, mut check: impl FnMut(&Case<'_>, &Answer<'_>)) {
    let mut bytes = Vec::new();
    notices::write(seed, count, &mut bytes).expect("a vector takes all");
    let mut stream = Stream::new(&bytes[..]);
    while let Next::Case(case) = stream.next_case().expect("a slice can be read") {
        check(&case, &Answer::to(&case));
    }
}

/// The text behind the colon of the field that an argument's bytes hold, if they do. Only an argument
/// without a colon of its own has one, and these cases have no other colon in an argument's bytes.
fn field_text(text: &str, bytes: &Range<usize>, has_type_span: bool) -> Range<usize> {
    match text[bytes.clone()].find(':') {
        Some(colon) if !has_type_span => {
            let closed = usize::from(text[bytes.clone()].ends_with('}'));
            bytes.start + colon + 1..bytes.end - closed
        }
        _ => bytes.end..bytes.end,
    }
}

/// The literal text of a piece: a literal's view; an argument's type, and the text of its field.
fn texts_of(text: &str, piece: &PieceRecord<'_>) -> [Range<usize>; 2] {
    match piece {
        PieceRecord::Literal(bytes) => [bytes.clone(), bytes.end..bytes.end],
        PieceRecord::Argument(bytes, argument) => [
            type_range(text, bytes.start, argument),
            field_text(text, bytes, argument.format.ty_span.is_some()),
        ],
    }
}

/// The lines of a source literal by the rules.
fn lines_by_the_rules(case: &Case<'_>, reading: &Reading<'_>) -> Vec<Range<usize>> {
    let (text, offset) = (reading.text, reading.quote_offset);
    let (mut lines, mut start) = (Vec::new(), offset);
    for bytes in reading.pieces.iter().flat_map(|piece| texts_of(text, piece)) {
        for (at, c) in text[bytes.clone()].char_indices() {
            let at = bytes.start + at + offset;
            if c == '\n' {
                lines.push(start..at);
                start = at + 1;
            } else if c.is_whitespace() && at == start {
                start = at + c.len_utf8();
            }
        }
    }
    if !stops(reading) {
        let snippet = case.snippet.expect("a source literal has a snippet");
        lines.push(start..snippet.len() - usize::from(case.style.unwrap_or(0)) - 1);
    }
    lines
}

/// Whether reading stops at a lone brace.
fn stops(reading: &Reading<'_>) -> bool {
    reading.errors.iter().any(|error| error.description.starts_with("unmatched"))
}

#[test]
fn lines_are_those_of_the_rules() {
    let mut read = 0;
    for_notices(21, 100_000, |case, answer| {
        let Some(reading) = &answer.reading else { return };
        assert_eq!(reading.lines, lines_by_the_rules(case, reading), "{:?}", reading.text);
        read += 1;
    });
    assert!(read > 50_000);
}

#[test]
fn a_list_with_one_record_too_few_is_refused_by_the_same_count() {
    for_notices(22, 100_000, |case, answer| {
        let [.., places, lines] = case.rooms.map(usize::from);
        let [.., needed_places, needed_lines] = answer.counts;
        let number = match (places < needed_places, lines < needed_lines) {
            (true, _) => 8,
            (false, true) => 9,
            (false, false) => 0,
        };
        assert_eq!(answer.number, number);
    });
}

#[test]
fn the_stored_cases_show_every_rule() {
    let (mut in_types, mut in_fields, mut plain, mut reversed, mut stopped) = (0, 0, 0, 0, 0);
    let mut numbers = [0; 10];
    for_notices(1, 400, |_, answer| {
        numbers[usize::from(answer.number)] += 1;
        let Some(reading) = &answer.reading else { return };
        let newlines = |bytes: Range<usize>| reading.text[bytes].matches('\n').count();
        let [mut typed, mut of_fields, mut others] = [0; 3];
        for piece in &reading.pieces {
            let [first, second] = texts_of(reading.text, piece);
            if let PieceRecord::Argument(bytes, _) = piece {
                others +=
                    newlines(bytes.clone()) - newlines(first.clone()) - newlines(second.clone());
                typed += newlines(first);
                of_fields += newlines(second);
            }
        }
        in_types += usize::from(typed > 0);
        in_fields += usize::from(of_fields > 0);
        plain += usize::from(others > 0);
        reversed += usize::from(reading.lines.iter().any(|line| line.start > line.end));
        stopped += usize::from(stops(reading));
    });
    assert!(in_types > 100 && in_fields > 50 && plain > 50 && reversed > 20 && stopped > 10);
    assert!(numbers[0] > 200 && numbers[8] > 20 && numbers[9] > 50);
}
