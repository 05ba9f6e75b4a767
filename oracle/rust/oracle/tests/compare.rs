//! Two listings are the same only where they have cases, all of them and whole; `oracle/compare`
//! rests on it.

use oracle::answer::Answer;
use oracle::case::{Next, Stream};
use oracle::listing::Listing;
use oracle::make::random;
use std::path::{Path, PathBuf};
use std::process::Command;

const SAME: Option<i32> = Some(0);
const DIFFERENT: Option<i32> = Some(1);
const UNREADABLE: Option<i32> = Some(2);

/// A folder of its own for a test, with the stream and the listing of some cases.
fn folder(test: &str, cases: usize) -> PathBuf {
    let folder = Path::new(env!("CARGO_TARGET_TMPDIR")).join(format!("compare-{test}"));
    std::fs::create_dir_all(&folder).expect("a folder can be made");
    let mut stream = Vec::new();
    random::write(5, cases, &[], &mut stream).expect("a vector takes all");
    std::fs::write(folder.join("stream"), &stream).expect("a file can be written");
    std::fs::write(folder.join("listing"), listed(&stream)).expect("a file can be written");
    folder
}

fn listed(stream: &[u8]) -> Vec<u8> {
    let (mut stream, mut listing) = (Stream::new(stream), Listing::default());
    while let Next::Case(case) = stream.next_case().expect("a slice can be read") {
        listing.answer(&Answer::to(&case));
    }
    listing.bytes
}

/// How `compare` ends when it is given these words in a folder.
fn ended(folder: &Path, words: &[&str]) -> Option<i32> {
    let mut command = Command::new(env!("CARGO_BIN_EXE_compare"));
    command.current_dir(folder).args(words).output().expect("compare runs").status.code()
}

#[test]
fn a_listing_is_the_same_as_itself() {
    let folder = folder("same", 500);
    assert_eq!(ended(&folder, &["listing", "listing"]), SAME);
    assert_eq!(ended(&folder, &["listing", "listing", "stream"]), SAME);
    assert_eq!(ended(&folder, &["--cases", "500", "listing", "listing", "stream"]), SAME);
}

#[test]
fn another_number_of_cases_is_a_difference() {
    let folder = folder("number", 500);
    assert_eq!(ended(&folder, &["--cases", "501", "listing", "listing"]), DIFFERENT);
    let stream = std::fs::read(folder.join("stream")).expect("it was written");
    let longer = [&stream[..], &stream[..]].concat();
    std::fs::write(folder.join("longer"), longer).expect("a file can be written");
    assert_eq!(ended(&folder, &["listing", "listing", "longer"]), DIFFERENT);
}

#[test]
fn two_empty_listings_are_not_the_same() {
    let folder = folder("empty", 500);
    std::fs::write(folder.join("empty"), "").expect("a file can be written");
    assert_eq!(ended(&folder, &["empty", "empty"]), DIFFERENT);
    assert_eq!(ended(&folder, &["empty", "empty", "stream"]), DIFFERENT);
    assert_eq!(ended(&folder, &["empty", "empty", "empty"]), DIFFERENT);
    assert_eq!(ended(&folder, &["empty", "listing"]), DIFFERENT);
}

#[test]
fn listings_that_break_off_together_are_not_the_same() {
    let folder = folder("broken", 40);
    let listing = std::fs::read(folder.join("listing")).expect("it was written");
    // After a whole case a listing may end, if nothing says how many there are; nowhere else.
    let starts: Vec<usize> = (0..listing.len())
        .filter(|&at| listing[at..].starts_with(b"case ") && (at == 0 || listing[at - 1] == b'\n'))
        .collect();
    assert_eq!(starts.len(), 40);
    for end in (0..listing.len()).step_by(7) {
        std::fs::write(folder.join("part"), &listing[..end]).expect("a file can be written");
        let whole = end != 0 && starts.contains(&end);
        let expected = if whole { SAME } else { DIFFERENT };
        assert_eq!(ended(&folder, &["part", "part"]), expected, "ended at byte {end}");
        assert_eq!(ended(&folder, &["part", "part", "stream"]), DIFFERENT, "ended at byte {end}");
    }
}

#[test]
fn what_is_not_there_cannot_be_compared() {
    let folder = folder("missing", 5);
    assert_eq!(ended(&folder, &["listing", "nothing"]), UNREADABLE);
    assert_eq!(ended(&folder, &["listing"]), UNREADABLE);
    assert_eq!(ended(&folder, &["--cases", "5"]), UNREADABLE);
    assert_eq!(ended(&folder, &["--cases", "many", "listing", "listing"]), UNREADABLE);
}
