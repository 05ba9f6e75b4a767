//! A stream of cases on standard input to the verdict on each, a line a case, through the library's C boundary: `yes`, `rule R piece P` or `answer N P`, as the
//! oracle's `verdicts` writes them. The rooms of a case are not looked at: no list is lent.

use nitarehpu::raw::{self, Request};
use std::io::{self, BufReader, BufWriter, Read, Write};

/// Reads so many bytes over what the buffer had; false where there are not as many.
fn filled(input: &mut impl Read, buffer: &mut Vec<u8>, count: usize) -> io::Result<bool> {
    buffer.resize(count, 0);
    let mut done = 0;
    while done < count {
        match input.read(&mut buffer[done..])? {
            0 => return Ok(false),
            more => done += more,
        }
    }
    Ok(true)
}

fn number(bytes: &[u8]) -> usize {
    bytes.iter().rev().fold(0, |sum, &byte| 256 * sum + usize::from(byte))
}

fn main() -> io::Result<()> {
    let mut input = BufReader::with_capacity(1 << 16, io::stdin().lock());
    let mut output = BufWriter::with_capacity(1 << 16, io::stdout().lock());
    let (mut head, mut snippet, mut text) = (Vec::new(), Vec::new(), Vec::new());
    while filled(&mut input, &mut head, 20)? {
        if !filled(&mut input, &mut snippet, number(&head[14..17]))? || !filled(&mut input, &mut text, number(&head[17..20]))? {
            writeln!(output, "stream")?;
            break;
        }
        let request = Request {
            mode: head[0],
            style: (head[1] == 1).then(|| number(&head[2..4])),
            snippet: (head[4] == 1).then_some(&snippet),
            newline: head[5] == 1,
        };
        let told = raw::member(&text, request);
        match (told.number, told.rule) {
            (0, 0) => writeln!(output, "yes")?,
            (0, rule) => writeln!(output, "rule {rule} piece {}", told.piece)?,
            (number, _) => writeln!(output, "answer {number} {}", told.place)?,
        }
    }
    output.flush()
}
