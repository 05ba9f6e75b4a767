//! Plain forms: by example, and what only the C boundary can show.

use nitarehpu::ParseMode::{Diagnostic, Format, InlineAsm};
use nitarehpu::raw::{self, Tidied};
use nitarehpu::{NotPlain, plain_form};

#[test]
fn plain_forms_by_example() {
    for (mode, text, plain, arguments) in [
        (Format, "", "", 0),
        (Format, "{: }<", "{}<", 1),
        (Format, "{:000} {:00} {:0}", "{:00} {:00} {:0}", 3),
        (Format, "{:0$} {:000$}", "{:0$} {:00$}", 2),
        (Format, "{:.} {:.00} { :}", "{} {:.0} {}", 3),
        (Format, "{ :.* }{:}", "{:.*}{}", 3),
        (Format, "{: > }{:}<}{:{^07}{:ø>5}", "{: >}{:}<}{:{^07}{:ø>5}", 4),
        (Format, "{{{:}}} }}{{", "{{{}}} }}{{", 1),
        (Format, "{n:^+#012.03$x? }", "{n:^+#012.3$x?}", 4),
        (InlineAsm, "{00 :x }{: }<", "{0:x}{}<", 1),
        (Diagnostic, "{:}{: x }{00: }{a ::}", "{}{: x }{0: }{a::}", 2),
    ] {
        let form = plain_form(text, mode).expect(text);
        assert_eq!((form.text.as_str(), form.arguments), (plain, arguments), "{text}");
        // writing twice changes nothing
        assert_eq!(plain_form(&form.text, mode), Ok(form.clone()), "{text}");
    }
    assert_eq!(plain_form("{", Format), Err(NotPlain::Errors));
    assert_eq!(plain_form(&"a".repeat(65_536), Format), Err(NotPlain::Long));
    assert_eq!(plain_form(&"a".repeat(65_535), Format).map(|form| form.text.len()), Ok(65_535));
}

#[test]
fn refusals_in_their_order_leave_the_output() {
    let told = |number, place, bytes| Tidied { number, place, bytes, arguments: 0 };
    let long = b"}\xff".repeat(40_000);
    for (mode, text, room, expected) in [
        (3, &long[..], 0, told(1, 0, 0)),
        (255, &b"a"[..], 8, told(1, 0, 0)),
        (0, &long[..], 0, told(3, 0, 0)),
        (0, &b"}\xff"[..], 0, told(4, 1, 0)),
        (1, &b"{:_}"[..], 0, told(10, 0, 0)),
        (0, &b"}"[..], 8, told(10, 0, 0)),
        (0, &b"{:000}a"[..], 5, told(11, 0, 6)),
        (2, &b"{{"[..], 0, told(11, 0, 2)),
    ] {
        let mut output = vec![b'.'; room];
        assert_eq!(raw::plain(text, mode, &mut output), expected);
        assert_eq!(output, vec![b'.'; room]);
    }
}

#[test]
fn an_output_keeps_its_rest() {
    let mut output = *b"........";
    assert_eq!(raw::plain(b"{: }<", 0, &mut output), Tidied { number: 0, place: 0, bytes: 3, arguments: 1 });
    assert_eq!(&output, b"{}<.....");
    // a form shorter than its text, into an output that has room for no more
    let mut output = *b"...";
    assert_eq!(raw::plain(b"{: }<", 0, &mut output).number, 0);
    assert_eq!(&output, b"{}<");
}

unsafe extern "C" {
    fn nitarehpu_plain(
        text: *const u8,
        text_length: usize,
        mode: u8,
        output: *mut u8,
        output_length: usize,
        answer: *mut usize,
        answer_length: usize,
    ) -> u8;
}

#[test]
fn an_answer_without_room_is_refused_and_a_longer_one_keeps_its_rest() {
    let text = b"{: }";
    for room in 0..6 {
        let mut answer = [7; 6];
        let mut output = *b"....";
        // SAFETY: each pointer goes with a length that its array has.
        let number = unsafe {
            nitarehpu_plain(text.as_ptr(), text.len(), 0, output.as_mut_ptr(), output.len(), answer.as_mut_ptr(), room)
        };
        if room < 4 {
            assert_eq!((number, answer, &output), (255, [7; 6], b"...."));
        } else {
            assert_eq!((number, answer, &output), (0, [0, 0, 2, 1, 7, 7], b"{}.."));
        }
    }
}

#[test]
fn an_empty_text_and_output_may_be_null() {
    let mut answer = [7; 4];
    // SAFETY: nothing is read or written where a length is 0.
    let number = unsafe {
        nitarehpu_plain(std::ptr::null(), 0, 0, std::ptr::null_mut(), 0, answer.as_mut_ptr(), 4)
    };
    assert_eq!((number, answer), (0, [0; 4]));
}
