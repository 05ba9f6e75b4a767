//! The API on texts whose outcome is known: the rows of the bench that show most, the lookup line, and the refusals.

use nitarehpu::{Alignment, Argument, Count, Numeral, ParseMode, Parsed, Piece, Position, Refused, parse};

fn read(text: &str) -> Parsed {
    parse(text, None, None, false, ParseMode::Format).expect("the text is read")
}

fn arguments(parsed: &Parsed) -> Vec<&Argument> {
    let argument = |piece| match piece {
        &Piece::NextArgument(ref argument) => Some(&**argument),
        Piece::Lit(_) => None,
    };
    parsed.pieces.iter().filter_map(argument).collect()
}

#[test]
fn an_empty_text_holds_nothing() {
    assert_eq!(read(""), Parsed::default());
}

#[test]
fn a_doubled_brace_is_a_literal_without_its_first() {
    assert_eq!(read("{{a").pieces, [Piece::Lit("{a".to_owned())]);
}

#[test]
fn a_star_is_counted_before_its_place() {
    let parsed = read("{:.*} {} {}");
    let found = arguments(&parsed);
    assert_eq!(found[0].format.precision, Count::CountIsStar(0));
    let places: Vec<_> = found.iter().map(|argument| argument.position.clone()).collect();
    assert_eq!(places, [1, 2, 3].map(Position::ArgumentImplicitlyIs));
}

#[test]
fn every_part_of_a_spec_is_told() {
    let parsed = read("{value:ø^+#010.3x?}");
    let [argument] = arguments(&parsed)[..] else { panic!("one argument") };
    let spec = &argument.format;
    assert_eq!(argument.position, Position::ArgumentNamed("value".to_owned()));
    assert_eq!((spec.fill, spec.align, spec.alternate, spec.zero_pad), (Some('ø'), Alignment::AlignCenter, true, true));
    assert_eq!((&spec.width, &spec.precision, &spec.ty[..]), (&Count::CountIs(Numeral::Within(10)), &Count::CountIs(Numeral::Within(3)), "?"));
    assert!(parsed.errors.is_empty());
}

#[test]
fn counts_by_name_and_by_argument_are_told() {
    let parsed = read("{:wide$.1$}");
    let [argument] = arguments(&parsed)[..] else { panic!("one argument") };
    assert_eq!(argument.format.width, Count::CountIsName("wide".to_owned(), 3..7));
    assert_eq!(argument.format.precision, Count::CountIsParam(Numeral::Within(1)));
}

#[test]
fn errors_of_the_front_come_first() {
    let kinds: Vec<_> = read("{foo?}").errors.iter().map(|error| (error.kind, error.span.clone())).collect();
    assert_eq!(kinds, [(9, 5..6), (2, 5..5), (1, 6..7)]);
}

#[test]
fn an_error_has_the_number_of_its_piece() {
    let pieces = |text: &str| -> Vec<_> { read(text).errors.iter().map(|error| (error.kind, error.piece)).collect() };
    assert_eq!(pieces("{foo?}"), [(9, 0), (2, 0), (1, 1)]);
    assert_eq!(pieces("{a.b}{c.d}"), [(13, 1), (13, 0), (2, 0), (2, 1)]);
    assert_eq!(pieces("x{_}"), [(6, 1)]);
}

#[test]
fn a_number_too_large_is_over_range() {
    let parsed = read("{65536}");
    assert_eq!(arguments(&parsed)[0].position, Position::ArgumentIs(Numeral::Over));
    assert_eq!((parsed.errors[0].kind, parsed.errors[0].span.clone()), (7, 2..8));
    let clean = read("{65535:065535.65535$}");
    assert_eq!(arguments(&clean)[0].position, Position::ArgumentIs(Numeral::Within(65_535)));
    assert!(clean.errors.is_empty());
}

#[test]
fn counts_over_range_keep_their_case_and_take_their_dollar() {
    let parsed = read("{:065536$.99999}{:65536.099999$}");
    let [first, second] = arguments(&parsed)[..] else { panic!("two arguments") };
    assert!(first.format.zero_pad && !second.format.zero_pad);
    assert_eq!((&first.format.width, &first.format.precision), (&Count::CountIsParam(Numeral::Over), &Count::CountIs(Numeral::Over)));
    assert_eq!((&second.format.width, &second.format.precision), (&Count::CountIs(Numeral::Over), &Count::CountIsParam(Numeral::Over)));
    let kinds: Vec<_> = parsed.errors.iter().map(|error| error.kind).collect();
    assert_eq!(kinds, [7; 4]);
}

#[test]
fn a_source_literal_has_lines_and_places() {
    let parsed = parse("a\n b{}", Some(0), Some("r\"a\n b{}\""), false, ParseMode::Format).expect("the text is read");
    assert_eq!(parsed.line_spans, [2..3, 5..8]);
    assert_eq!(parsed.arg_places, [6..8]);
}

#[test]
fn a_text_says_how_many_arguments_it_wants() {
    let wanted = |text: &str| parse(text, None, None, false, ParseMode::Format).expect("the text is read").arguments;
    assert_eq!(["", "{a}", "{:.*} {} {}", "{7}{}", "{:1$}", "{65536}", "{a.}{}"].map(wanted), [0, 0, 4, 8, 2, 0, 2]);
}

#[test]
fn a_text_says_how_many_characters_were_passed() {
    let moves = |text: &str| parse(text, None, None, false, ParseMode::Format).expect("the text is read").moves;
    assert_eq!(["", "}", "øø", "{:aaa}", "{:aaaa", "{:xaaaa}", "{a.b}", "{a.b:cc}"].map(moves), [0, 1, 2, 9, 10, 13, 5, 10]);
}

#[test]
fn a_diagnostic_type_is_any_text() {
    let parsed = parse("{name:any text }", None, None, false, ParseMode::Diagnostic).expect("the text is read");
    assert_eq!(arguments(&parsed)[0].format.ty, "any text ");
}

#[test]
fn refusals_are_told() {
    let refused = |text: &str, style, snippet, newline| parse(text, style, snippet, newline, ParseMode::Format).expect_err("it is refused");
    assert_eq!(refused("", Some(256), None, false), Refused::Style);
    assert_eq!(refused("", None, Some("\"\""), false), Refused::Style);
    assert_eq!(refused(&"a".repeat(65_536), None, None, false), Refused::Long);
    assert_eq!(refused("a", None, None, true), Refused::Newline);
}

#[test]
fn the_longest_text_is_read() {
    let text = "{}".repeat(32_767);
    assert_eq!(read(&text).pieces.len(), 32_767);
}

#[test]
fn nothing_of_a_longer_text_stays_for_a_shorter_one() {
    let long = read(&"{,{:_}".repeat(2000));
    assert!(2000 < long.errors.len());
    for text in ["{a}", "", "{,{:_}", "{a}"] {
        assert_eq!(read(text), std::thread::scope(|s| s.spawn(|| read(text)).join().unwrap()));
    }
}
