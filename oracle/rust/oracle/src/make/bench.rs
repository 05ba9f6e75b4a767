//! The bench, B1 to B15 (docs/RULES.md, section 11).

use super::Draft;

/// The texts of B1 to B14, in Format without style or snippet.
const TEXTS: &[&str] = &[
    "", "{{a", "{}", "{:.*}{}", "{:0$}", "{:0}", "{65535}", "{65536}", "{:}<", "{foo?}", "{:_}",
    "}", "{:x5}", "{a.b}",
];

/// The fifteen cases in order.
pub fn cases() -> Vec<Draft> {
    let mut cases: Vec<Draft> = TEXTS.iter().map(|&text| Draft::plain(0, text)).collect();
    cases.push(Draft {
        style: Some(0),
        snippet: Some(b"r\"a\n b\"".to_vec()),
        ..Draft::plain(0, "a\n b")
    });
    cases
}
