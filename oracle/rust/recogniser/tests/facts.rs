//! What the grammar of docs/RULES.md says of single texts, written by hand.

use recogniser::{Count, Element, Mode, Place, Reading, Spec, readings};

fn all(mode: Mode, text: &str) -> Vec<Reading> {
    readings(&text.chars().collect::<Vec<_>>(), mode)
}

/// The only reading of a text.
fn only(mode: Mode, text: &str) -> Reading {
    let [reading] = &all(mode, text)[..] else { panic!("{text:?} has one reading") };
    reading.clone()
}

/// The place and spec of a text that is one placeholder.
fn placeholder(mode: Mode, text: &str) -> (Place, Spec) {
    let [Element::Placeholder(range, place, spec)] = &only(mode, text)[..] else {
        panic!("{text:?} is one placeholder")
    };
    assert_eq!(*range, 0..text.chars().count());
    (place.clone(), spec.clone())
}

fn format(text: &str) -> Spec {
    placeholder(Mode::Format, text).1
}

fn unreadable(mode: Mode, texts: &[&str]) {
    for text in texts {
        assert_eq!(all(mode, text), [] as [Reading; 0], "{text:?} has no reading");
    }
}

#[test]
fn the_bench_is_readable_where_it_is_clean() {
    assert_eq!(only(Mode::Format, ""), []);
    assert_eq!(only(Mode::Format, "{{a"), [Element::Literal(1..3)]);
    assert_eq!(placeholder(Mode::Format, "{}"), (Place::Next(0), Spec::default()));
    assert_eq!(format("{:0$}"), Spec { width: Count::ByArgument(0), ..Spec::default() });
    assert_eq!(format("{:0}"), Spec { zero: true, ..Spec::default() });
    assert_eq!(placeholder(Mode::Format, "{65535}").0, Place::At(65_535));
    unreadable(Mode::Format, &["{65536}", "{:}<", "{foo?}", "{:_}", "}", "{:x5}", "{a.b}"]);
    assert_eq!(only(Mode::Format, "a\n b"), [Element::Literal(0..4)]);
}

#[test]
fn a_star_comes_before_its_place() {
    let star = Spec { precision: Count::ByStar(0), ..Spec::default() };
    let first = Element::Placeholder(0..5, Place::Next(1), star);
    let second = Element::Placeholder(5..7, Place::Next(2), Spec::default());
    assert_eq!(only(Mode::Format, "{:.*}{}"), [first, second]);
}

#[test]
fn literals_go_to_the_next_brace() {
    let literals = [0..1, 2..4, 5..6, 7..9].map(Element::Literal);
    assert_eq!(only(Mode::Format, "é{{a}}}}b"), literals);
    unreadable(Mode::Format, &["{", "a}", "{{}", "{}}", "}}}", "{{{", "{{{a}}"]);
}

#[test]
fn a_spec_has_all_its_parts_in_order() {
    let spec = Spec {
        fill: Some('}'),
        align: Some('^'),
        sign: Some('-'),
        alternate: true,
        zero: true,
        width: Count::ByArgument(7),
        precision: Count::ByName("p".to_owned()),
        hex: Some('X'),
        ty: "?".to_owned(),
    };
    let (place, found) = placeholder(Mode::Format, "{é1\u{3000}:}^-#07$.p$X? \n}");
    assert_eq!((place, found), (Place::Named("é1".to_owned()), spec));
    unreadable(Mode::Format, &["{:#+}", "{:1#}", "{:.1 2}", "{:a.1}", "{: a}", "{:xa}", "{:a$_$}"]);
}

#[test]
fn choices_leave_one_reading_or_none() {
    assert_eq!(format("{:<<}").fill, Some('<'));
    unreadable(Mode::Format, &["{:}<}}", "{:{<"]);
    assert_eq!(format("{:01}").width, Count::Fixed(1));
    assert_eq!(format("{:00$}").width, Count::ByArgument(0));
    assert_eq!(placeholder(Mode::Format, "{  }").0, Place::Next(0));
    assert_eq!(only(Mode::InlineAsm, "{:}<}}").len(), 3);
}

#[test]
fn the_other_modes_have_their_own_specs() {
    assert_eq!(placeholder(Mode::InlineAsm, "{0:xyz }").1.ty, "xyz");
    unreadable(Mode::InlineAsm, &["{:?}", "{:<}", "{:0}", "{:_}", "{: a}"]);
    assert_eq!(placeholder(Mode::Diagnostic, "{a : _ .* }").1.ty, " _ .* ");
    unreadable(Mode::Diagnostic, &["{_}", "{:{}", "{a b}"]);
}
