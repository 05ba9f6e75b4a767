//! Totals known by hand, and lists that are none.

use oracle::seasons::Totals;

/// A list of these texts.
fn list(texts: &[&[u8]]) -> Vec<u8> {
    let two = |n: usize| u16::try_from(n).unwrap().to_le_bytes();
    let mut bytes = two(texts.len()).to_vec();
    for text in texts {
        bytes.extend(two(text.len()));
        bytes.extend(*text);
    }
    bytes
}

#[test]
fn a_text_each() {
    let known: &[(&[u8], Totals)] = &[
        (b"", Totals { texts: 1, sound: 1, ..Totals::default() }),
        (
            b"{:.*} {} {0}{n}",
            Totals {
                texts: 1,
                sound: 1,
                literal: 2,
                next: 2,
                at: 1,
                named: 1,
                stars: 1,
                ..Totals::default()
            },
        ),
        (b"{}\xFF", Totals { texts: 1, refused: 1, ..Totals::default() }),
    ];
    for (text, totals) in known {
        assert_eq!(Totals::of(&list(&[text])).as_ref(), Some(totals));
    }
}

#[test]
fn over_range_and_recovery() {
    let totals = Totals::of(&list(&[b"{65536}", b"{a.b:.*} {:.*}"])).unwrap();
    assert_eq!((totals.over, totals.at, totals.stars), (1, 0, 1));
    assert_eq!((totals.kinds[1], totals.kinds[6], totals.kinds[12]), (1, 1, 1));
}

#[test]
fn no_list() {
    let whole = list(&[b"{}", b"", b"a}"]);
    assert!(Totals::of(&whole).is_some());
    for cut in 0..whole.len() {
        assert_eq!(Totals::of(&whole[..cut]), None, "cut at {cut}");
    }
    assert_eq!(Totals::of(&[&whole[..], b"\0"].concat()), None);
    assert!(Totals::of(&list(&vec![&b""[..]; 10_000])).is_some());
    assert_eq!(Totals::of(&list(&vec![&b""[..]; 10_001])), None);
}
