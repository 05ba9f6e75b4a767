//! Member templates: the rules by example, and what only the C boundary can show.

use nitarehpu::raw::{self, Request, Told};
use nitarehpu::{Refused, Rule, Verdict, member};

#[test]
fn rules_in_their_order() {
    for (text, verdict) in [
        ("{number}", Verdict::Yes),
        ("{name:>8.3} {number} of {date}, {date:x}", Verdict::Yes),
        ("{number", Verdict::Broken(Rule::Error, 0)),
        ("{r#number}", Verdict::Broken(Rule::Error, 0)),
        ("{number} {}", Verdict::Broken(Rule::Unnamed, 2)),
        ("{number} {0:.*}", Verdict::Broken(Rule::Unnamed, 2)),
        ("{number:.*}", Verdict::Broken(Rule::Taken, 0)),
        ("{date}{number:.1$}", Verdict::Broken(Rule::Taken, 1)),
        ("", Verdict::Broken(Rule::Number, 0)),
        ("{date} a", Verdict::Broken(Rule::Number, 2)),
        ("{date}{number}{number}", Verdict::Broken(Rule::Number, 2)),
        ("{moisture:.1} {date} {number}", Verdict::Broken(Rule::Date, 2)),
    ] {
        assert_eq!(member(text), Ok(verdict), "{text}");
    }
    assert_eq!(member(&"a".repeat(65_536)), Err(Refused::Long));
}

#[test]
fn refusals_in_their_order() {
    let told = |number, place| Told { number, place, rule: 0, piece: 0 };
    for (mode, style, snippet, newline, text, number, place) in [
        (3, None, Some(&b"x"[..]), false, &b"\xff"[..], 1, 0),
        (1, None, Some(&b"x"[..]), false, &b"\xff"[..], 17, 0),
        (2, None, None, false, &b"{number}"[..], 17, 0),
        (0, None, Some(&b"x"[..]), false, &b"\xff"[..], 2, 0),
        (0, Some(256), None, false, &b"\xff"[..], 2, 0),
        (0, None, None, true, &b"a\xff"[..], 4, 1),
        (0, None, None, true, &b"{number}"[..], 5, 0),
    ] {
        assert_eq!(raw::member(text, Request { mode, style, snippet, newline }), told(number, place), "{number}");
    }
}

unsafe extern "C" {
    fn nitarehpu_member(
        text: *const u8,
        text_length: usize,
        snippet: *const u8,
        snippet_length: usize,
        mode: u8,
        style: u8,
        hashes: usize,
        given: u8,
        newline: u8,
        answer: *mut usize,
        answer_length: usize,
    ) -> u8;
}

#[test]
fn an_answer_without_room_is_refused_and_a_longer_one_keeps_its_rest() {
    let text = b"{date}{number}";
    for room in 0..6 {
        let mut answer = [7; 6];
        // SAFETY: each pointer goes with a length that its array has; an empty snippet is not looked at.
        let number = unsafe {
            nitarehpu_member(text.as_ptr(), text.len(), std::ptr::null(), 0, 0, 0, 0, 0, 0, answer.as_mut_ptr(), room)
        };
        if room < 4 {
            assert_eq!((number, answer), (255, [7; 6]));
        } else {
            assert_eq!((number, answer), (0, [0, 0, 5, 0, 7, 7]));
        }
    }
}
