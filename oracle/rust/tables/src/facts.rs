//! What is known of the tables, checked each time they are made.

use crate::table::Table;

/// Whether a compiler's table is that of another Unicode than the known one: it holds all of the
/// known characters and more, or nearly all of them and no others. Unicode never takes a character
/// out of these tables again, so any other difference is a fault.
pub fn is_another_unicode(compilers: &Table, known: &Table) -> bool {
    let (here, there) = (compilers.size(), known.size());
    let newer = there < here && holds(compilers, known);
    let older = here < there && there / 10 * 9 < here && holds(known, compilers);
    !counts_known(compilers) && (newer || older)
}

/// Whether every range of the second table lies within one of the first.
fn holds(larger: &Table, smaller: &Table) -> bool {
    smaller
        .ranges
        .iter()
        .all(|&(low, high)| larger.ranges.iter().any(|&(start, end)| start <= low && high <= end))
}

/// Every fact about one table, or the first that fails.
pub fn check(table: &Table) -> Result<(), String> {
    let facts = [
        (counts_known(table), "has other counts than in Unicode 17.0.0"),
        (ordered(table), "is not ascending, disjoint and maximal"),
        (scalar_values_only(table), "has a range with surrogates or past the last character"),
        (table.word != "space" || is_white_space(table), "is not char::is_whitespace"),
    ];
    match facts.into_iter().find(|(holds, _)| !holds) {
        None => Ok(()),
        Some((_, fault)) => Err(format!("the table `{}` {fault}", table.word)),
    }
}

fn counts_known(table: &Table) -> bool {
    (table.ranges.len(), table.size()) == table.known
}

/// Each range is in order, and at least one number lies between two neighbours.
fn ordered(table: &Table) -> bool {
    table.ranges.iter().all(|(low, high)| low <= high)
        && table.ranges.windows(2).all(|pair| pair[0].1 + 1 < pair[1].0)
}

fn scalar_values_only(table: &Table) -> bool {
    table.ranges.iter().all(|&(low, high)| (low..=high).all(|c| char::from_u32(c).is_some()))
}

/// Membership agrees with the standard library for every scalar value.
fn is_white_space(table: &Table) -> bool {
    let member = |c: u32| table.ranges.iter().any(|&(low, high)| low <= c && c <= high);
    ('\0'..=char::MAX).all(|c| c.is_whitespace() == member(u32::from(c)))
}
