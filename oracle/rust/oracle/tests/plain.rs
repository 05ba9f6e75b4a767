//! Plain forms known by hand, in each mode, and the refusals in their order.

use oracle::case::Case;
use oracle::plain::Tidied::{self, Refused, Written};

fn with_room(mode: u8, text: &[u8], room: u16) -> Tidied {
    let mut case = Case::plain(mode, text);
    case.rooms[0] = room;
    Tidied::on(&case)
}

#[test]
fn plain_forms() {
    for (mode, text, plain, arguments) in [
        (0, "", "", 0),
        (0, "{: }<", "{}<", 1),
        (0, "{:000} {:00} {:0}", "{:00} {:00} {:0}", 3),
        (0, "{:0$} {:000$}", "{:0$} {:00$}", 2),
        (0, "{:.} {:.00} { :}", "{} {:.0} {}", 3),
        (0, "{ :.* }{:}", "{:.*}{}", 3),
        (0, "{: > }{:}<}{:{^07}", "{: >}{:}<}{:{^07}", 3),
        (0, "{{{:}}} }}{{", "{{{}}} }}{{", 1),
        (0, "{n:^+#012.03$x? }", "{n:^+#012.3$x?}", 4),
        (1, "{00 :x }{: }<", "{0:x}{}<", 1),
        (2, "{:}{: x }{00: }{a ::}", "{}{: x }{0: }{a::}", 2),
    ] {
        let written = Written { plain: plain.to_owned(), arguments };
        assert_eq!(with_room(mode, text.as_bytes(), 100), written, "{text}");
    }
}

#[test]
fn refusals() {
    let long = b"}\xff".repeat(40_000);
    for (mode, text, room, refused) in [
        (3, &long[..], 0, Refused(1, 0, 0)),
        (0, &long[..], 0, Refused(3, 0, 0)),
        (0, b"}\xff", 0, Refused(4, 1, 0)),
        (1, b"{:_}", 0, Refused(10, 0, 0)),
        (0, b"{:000}a", 5, Refused(11, 0, 6)),
        (2, b"{{", 0, Refused(11, 0, 2)),
    ] {
        assert_eq!(with_room(mode, text, room), refused);
    }
}
