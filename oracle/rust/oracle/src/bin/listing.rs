//! Reads a stream of cases on standard input and lists the Rust's answers in full.

use oracle::answer::Answer;
use oracle::case::{Next, Stream};
use oracle::exit;
use oracle::listing::Listing;
use std::io::{self, BufReader, Write};
use std::process::ExitCode;

/// The bytes that are listed before they are written.
const ENOUGH: usize = 1 << 16;

fn main() -> ExitCode {
    exit::after("listing", list())
}

fn list() -> io::Result<()> {
    let mut stream = Stream::new(BufReader::with_capacity(1 << 16, io::stdin().lock()));
    let mut output = io::stdout().lock();
    let mut listing = Listing::default();
    loop {
        match stream.next_case()? {
            Next::Case(case) => listing.answer(&Answer::to(&case)),
            Next::End => break,
            Next::Broken => {
                listing.broken_stream();
                break;
            }
        }
        if listing.bytes.len() >= ENOUGH {
            output.write_all(&listing.bytes)?;
            listing.bytes.clear();
        }
    }
    output.write_all(&listing.bytes)?;
    output.flush()
}
