//! Compares two listings and shows the first difference: the case, what both say, and the case's
//! bytes if its stream is given. Both listings are read once, so pipes will do.
//!
//! Two listings that are the same are not enough: they must have cases, as many as the stream or
//! `--cases` says, and each case all the records that its answer counts. Programs that write
//! nothing, or break off at the same place, do not agree on anything.

use oracle::case::{Next, Stream};
use std::fs::File;
use std::io::{self, BufRead, BufReader};
use std::process::ExitCode;

/// The lines before a difference that are shown.
const CONTEXT: usize = 12;

/// Where two listings part.
struct Difference {
    /// The lines of the case that both have, from `case K` on.
    common: Vec<u8>,
    left: Vec<u8>,
    right: Vec<u8>,
}

fn main() -> ExitCode {
    let arguments: Vec<String> = std::env::args().skip(1).collect();
    let words: Vec<&str> = arguments.iter().map(String::as_str).collect();
    let (expected, files) = match words[..] {
        ["--cases", number, ref files @ ..] => (Some(number.parse()), files),
        ref files => (None, files),
    };
    let outcome = match (expected.transpose(), files) {
        (Ok(expected), &[left, right]) => compare(left, right, None, expected),
        (Ok(expected), &[left, right, stream]) => compare(left, right, Some(stream), expected),
        _ => {
            eprintln!("usage: compare [--cases NUMBER] LISTING LISTING [STREAM]");
            return ExitCode::from(2);
        }
    };
    match outcome {
        Ok(true) => ExitCode::SUCCESS,
        Ok(false) => ExitCode::FAILURE,
        Err(error) => {
            eprintln!("compare: {error}");
            ExitCode::from(2)
        }
    }
}

/// Whether the listings are the same, and whole; says so, or shows where they part or what is
/// missing.
fn compare(
    left: &str,
    right: &str,
    stream: Option<&str>,
    expected: Option<usize>,
) -> io::Result<bool> {
    let open = |name: &str| File::open(name).map(|file| BufReader::with_capacity(1 << 20, file));
    let mut standing = Standing::default();
    if let Some(difference) = first_difference(&mut open(left)?, &mut open(right)?, &mut standing)?
    {
        show(&difference, left, right);
        if let (Some(stream), Some(case)) = (stream, standing.cases.checked_sub(1)) {
            show_case(stream, case)?;
        }
        return Ok(false);
    }
    let cases = standing.cases;
    if cases == 0 {
        println!("neither listing has a case: nothing was compared");
        return Ok(false);
    }
    if !standing.is_whole() {
        println!("both listings break off within a case, at or before case {}", cases - 1);
        return Ok(false);
    }
    let counted = stream.map(cases_in).transpose()?;
    for (wanted, whose) in [(counted, "the stream has"), (expected, "there should be")] {
        if let Some(wanted) = wanted
            && wanted != cases
        {
            println!("both listings have {cases} cases, where {whose} {wanted}");
            return Ok(false);
        }
    }
    println!("{cases} cases, the same");
    Ok(true)
}

/// The whole cases of a stream.
fn cases_in(stream: &str) -> io::Result<usize> {
    let mut stream = Stream::new(BufReader::with_capacity(1 << 20, File::open(stream)?));
    let mut cases = 0;
    while let Next::Case(_) = stream.next_case()? {
        cases += 1;
    }
    Ok(cases)
}

/// How far a listing has come.
#[derive(Default)]
struct Standing {
    cases: usize,
    /// The records that the last case still lacks; none before its answer.
    lacking: Option<usize>,
    /// A case was left before it had all its records, or has more than its answer counts.
    broken: bool,
}

impl Standing {
    fn is_whole(&self) -> bool {
        !self.broken && self.lacking == Some(0)
    }

    fn follow(&mut self, line: &[u8]) {
        if line.starts_with(b"case ") {
            self.broken |= self.cases != 0 && self.lacking != Some(0);
            self.cases += 1;
            self.lacking = None;
        } else if let Some(numbers) = line.strip_prefix(b"answer ") {
            self.lacking = records_of(numbers);
        } else if !line.starts_with(b"changed") && !line.starts_with(b"stream") {
            self.lacking = self.lacking.and_then(|records| records.checked_sub(1));
        }
        self.broken |= !line.ends_with(b"\n");
    }
}

/// The records that an answer announces: those that it counts if it is done, else none.
fn records_of(answer: &[u8]) -> Option<usize> {
    let mut numbers = answer.split(|&byte| byte == b' ').map(|word| {
        std::str::from_utf8(word).ok().and_then(|digits| digits.trim_end().parse::<usize>().ok())
    });
    let number = numbers.next()??;
    let _place = numbers.next()??;
    let mut records = 0;
    for _ in 0..4 {
        records += numbers.next()??;
    }
    Some(if number == 0 { records } else { 0 })
}

/// Reads both line by line as long as they agree, and follows what they have in common.
fn first_difference(
    left: &mut impl BufRead,
    right: &mut impl BufRead,
    standing: &mut Standing,
) -> io::Result<Option<Difference>> {
    let (mut common, mut left_line, mut right_line) = (Vec::new(), Vec::new(), Vec::new());
    loop {
        left_line.clear();
        right_line.clear();
        left.read_until(b'\n', &mut left_line)?;
        right.read_until(b'\n', &mut right_line)?;
        if left_line != right_line {
            return Ok(Some(Difference { common, left: left_line, right: right_line }));
        }
        if left_line.is_empty() {
            return Ok(None);
        }
        standing.follow(&left_line);
        if left_line.starts_with(b"case ") {
            common.clear();
        }
        common.extend_from_slice(&left_line);
    }
}

fn show(difference: &Difference, left: &str, right: &str) {
    let common = String::from_utf8_lossy(&difference.common);
    let common: Vec<&str> = common.lines().collect();
    let (head, rest) = common.split_at(common.len().min(2));
    let left_out = rest.len().saturating_sub(CONTEXT);
    head.iter().for_each(|line| println!("  {line}"));
    if left_out > 0 {
        println!("  ({left_out} lines that both have)");
    }
    rest[left_out..].iter().for_each(|line| println!("  {line}"));
    for (line, name) in [(&difference.left, left), (&difference.right, right)] {
        println!("! {}   [{name}]", line_or_end(line));
    }
}

fn line_or_end(line: &[u8]) -> String {
    if line.is_empty() {
        "(the end)".to_owned()
    } else {
        String::from_utf8_lossy(line).trim_end().to_owned()
    }
}

/// Shows what the case of that number was given.
fn show_case(stream: &str, number: usize) -> io::Result<()> {
    let mut stream = Stream::new(BufReader::new(File::open(stream)?));
    for _ in 0..number {
        stream.next_case()?;
    }
    let Next::Case(case) = stream.next_case()? else {
        println!("the stream has no case {number}");
        return Ok(());
    };
    println!("mode {} style {:?} newline {}", case.mode, case.style, case.appended_newline);
    println!("rooms {:?}", case.rooms);
    if let Some(snippet) = case.snippet {
        println!("snippet, {} bytes: {}", snippet.len(), snippet.escape_ascii());
    }
    println!("text, {} bytes: {}", case.text.len(), case.text.escape_ascii());
    Ok(())
}
