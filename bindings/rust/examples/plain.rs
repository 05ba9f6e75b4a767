//! A stream of cases on standard input to what the call for a plain form answers to each, a line a case, through the library's C boundary: `answer N P BYTES
//! ARGUMENTS`, and the plain form in hexadecimal where N is 0, as the oracle's `plain` writes them. The output has as many bytes as the case has room for pieces;
//! style, snippet and newline are not looked at. A written form is asked for twice more, with no byte to spare and with one too few.

use nitarehpu::raw::{self, Tidied};
use std::io::{self, BufReader, BufWriter, Read, Write};

/// Reads so many bytes over what the buffer had; false where there are not as many.
fn filled(input: &mut impl Read, buffer: &mut Vec<u8>, count: usize) -> io::Result<bool> {
    buffer.resize(count, 0);
    let mut done = 0;
    while done < count {
        match input.read(&mut buffer[done..])? {
            0 => return Ok(false),
            more => done += more,
        }
    }
    Ok(true)
}

fn number(bytes: &[u8]) -> usize {
    bytes.iter().rev().fold(0, |sum, &byte| 256 * sum + usize::from(byte))
}

/// What an output holds before a call, which a refusal leaves.
const BEFORE: u8 = b'.';

fn main() -> io::Result<()> {
    let mut input = BufReader::with_capacity(1 << 16, io::stdin().lock());
    let mut output = BufWriter::with_capacity(1 << 16, io::stdout().lock());
    let (mut head, mut snippet, mut text) = (Vec::new(), Vec::new(), Vec::new());
    while filled(&mut input, &mut head, 20)? {
        if !filled(&mut input, &mut snippet, number(&head[14..17]))? || !filled(&mut input, &mut text, number(&head[17..20]))? {
            writeln!(output, "stream")?;
            break;
        }
        let mode = head[0];
        let mut form = vec![BEFORE; number(&head[6..8])];
        let told = raw::plain(&text, mode, &mut form);
        write!(output, "answer {} {} {} {}", told.number, told.place, told.bytes, told.arguments)?;
        let (written, rest) = form.split_at(if told.number == 0 { told.bytes } else { 0 });
        assert!(rest.iter().all(|&byte| byte == BEFORE), "the rest of an output stays");
        if told.number == 0 {
            write!(output, " ")?;
            written.iter().try_for_each(|byte| write!(output, "{byte:02x}"))?;
            let mut exact = vec![BEFORE; told.bytes];
            assert_eq!(raw::plain(&text, mode, &mut exact), told, "an output with no byte to spare is enough");
            assert_eq!(exact, written);
            if told.bytes > 0 {
                let mut short = vec![BEFORE; told.bytes - 1];
                let refused = Tidied { number: 11, arguments: 0, ..told };
                assert_eq!(raw::plain(&text, mode, &mut short), refused, "a byte too few is refused");
                assert!(short.iter().all(|&byte| byte == BEFORE), "a refusal leaves the output");
            }
        }
        writeln!(output)?;
    }
    output.flush()
}
