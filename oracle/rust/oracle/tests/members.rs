//! Verdicts known by hand: each rule alone and with later ones broken too, and the refusals in
//! their order.

use oracle::case::Case;
use oracle::members::Verdict::{self, Broken, Refused, Yes};

fn on(text: &str) -> Verdict {
    Verdict::on(&Case::plain(0, text.as_bytes()))
}

#[test]
fn member_templates() {
    for text in
        ["{number}", "Sample {number} of {date}", "{name :*>+#08.3e}{{{number:>6}{date}{date}"]
    {
        assert_eq!(on(text), Yes, "{text}");
    }
}

#[test]
fn first_broken_rule_and_piece() {
    for (text, rule, piece) in [
        ("{number", 1, 0),
        ("a{number}}", 1, 0),
        ("{r#number}", 1, 0),
        ("{date:.*}{}{number}{number}{", 1, 0),
        ("{number}{}", 2, 1),
        ("{number} {0}", 2, 2),
        ("{number:.*} {:.*}", 2, 2),
        ("{date:w$}{}{number}{number}{1}", 2, 1),
        ("{number:.*}", 3, 0),
        ("{number:1$}", 3, 0),
        ("{number:.1$}", 3, 0),
        ("{number:w$}", 3, 0),
        ("a{number}{date:.w$}{date:.*}", 3, 2),
        ("{date}{date:5.*}", 3, 1),
        ("{date}{number}{number:.*}", 3, 2),
        ("", 4, 0),
        ("a", 4, 1),
        ("{date} {Number}{numbers}", 4, 4),
        ("{number}{number}", 4, 1),
        ("{number} {number}{number}", 4, 2),
        ("{date}{number} {number}", 4, 3),
        ("{date}{number}", 5, 0),
        ("{moisture:.1} {date} {number}", 5, 2),
        ("{date} {date} {number} {date}", 5, 0),
    ] {
        assert_eq!(on(text), Broken(rule, piece), "{text}");
    }
}

#[test]
fn refusals_in_order() {
    let call = |mode, style, snippet: bool, newline, text| {
        let snippet = snippet.then_some(&b"x"[..]);
        Verdict::on(&Case { style, snippet, appended_newline: newline, ..Case::plain(mode, text) })
    };
    assert_eq!(call(3, None, true, false, b"\xFF"), Refused(1, 0));
    assert_eq!(call(1, None, true, false, b"\xFF"), Refused(17, 0));
    assert_eq!(call(2, None, false, false, b"{number}"), Refused(17, 0));
    assert_eq!(call(0, None, true, false, b"\xFF"), Refused(2, 0));
    assert_eq!(call(0, Some(256), false, false, b""), Refused(2, 0));
    assert_eq!(call(0, None, false, true, &[b'a'; 65_536]), Refused(3, 0));
    assert_eq!(call(0, None, false, true, b"a\xFF"), Refused(4, 1));
    assert_eq!(call(0, None, false, true, b"{number}"), Refused(5, 0));
}
