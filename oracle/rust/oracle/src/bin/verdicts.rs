//! Reads a stream of cases on standard input and writes the verdict on each, a line a case.

use oracle::case::{Next, Stream};
use oracle::exit;
use oracle::members::Verdict;
use std::io::{self, BufReader, BufWriter, Write};
use std::process::ExitCode;

fn main() -> ExitCode {
    exit::after("verdicts", list())
}

fn list() -> io::Result<()> {
    let mut stream = Stream::new(BufReader::with_capacity(1 << 16, io::stdin().lock()));
    let mut output = BufWriter::with_capacity(1 << 16, io::stdout().lock());
    loop {
        match stream.next_case()? {
            Next::Case(case) => writeln!(output, "{}", Verdict::on(&case))?,
            Next::End => return output.flush(),
            Next::Broken => {
                writeln!(output, "stream")?;
                return output.flush();
            }
        }
    }
}
