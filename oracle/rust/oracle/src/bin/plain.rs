//! Reads a stream of cases on standard input and writes what a call for the plain form of each
//! must answer, a line a case. With --classes it writes nothing of each, and looks whether plain
//! forms are equal exactly where pieces are, over all accepted texts of the stream.

use oracle::case::{Next, Stream};
use oracle::exit;
use oracle::plain::{Tidied, accepted};
use std::collections::HashMap;
use std::io::{self, BufReader, BufWriter, Write};
use std::process::ExitCode;

fn main() -> ExitCode {
    let arguments: Vec<String> = std::env::args().skip(1).collect();
    match arguments.iter().map(String::as_str).collect::<Vec<_>>()[..] {
        [] => exit::after("plain", list()),
        ["--classes"] => exit::after("plain", classes()),
        _ => {
            eprintln!("usage: plain [--classes] <STREAM");
            ExitCode::from(2)
        }
    }
}

fn list() -> io::Result<()> {
    let mut stream = Stream::new(BufReader::with_capacity(1 << 16, io::stdin().lock()));
    let mut output = BufWriter::with_capacity(1 << 16, io::stdout().lock());
    loop {
        match stream.next_case()? {
            Next::Case(case) => writeln!(output, "{}", Tidied::on(&case))?,
            Next::End => return output.flush(),
            Next::Broken => {
                writeln!(output, "stream")?;
                return output.flush();
            }
        }
    }
}

/// "Two accepted texts of one mode have equal plain forms exactly when their pieces are so equal"
fn classes() -> io::Result<()> {
    let mut stream = Stream::new(BufReader::with_capacity(1 << 16, io::stdin().lock()));
    let mut plain_of = HashMap::new();
    let mut said_of = HashMap::new();
    let mut texts = 0_u64;
    loop {
        match stream.next_case()? {
            Next::Case(case) => {
                let Ok(found) = accepted(&case) else { continue };
                texts += 1;
                let said = (found.mode, found.said);
                let plain = (found.mode, found.plain);
                let first = plain_of.entry(said.clone()).or_insert_with(|| plain.clone());
                assert_eq!(*first, plain, "the same pieces in two plain forms");
                let first = said_of.entry(plain).or_insert_with(|| said.clone());
                assert_eq!(*first, said, "one plain form of different pieces");
            }
            Next::End => {
                println!("accepted {texts}, different {}", plain_of.len());
                return Ok(());
            }
            Next::Broken => return Err(io::Error::other("the stream breaks off")),
        }
    }
}
