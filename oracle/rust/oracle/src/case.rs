//! A case, which is what one call is given, and the stream that cases come in.

use std::io::{self, Read, Write};

/// The bytes of a case before its snippet and text.
const HEADER: usize = 20;
/// The longest snippet or text that a stream may hold.
pub const LONGEST: usize = 66_560;
/// The records that each of the program's lists holds; a larger room counts as this.
pub const LARGEST_ROOM: u16 = 1_024;

/// What one call is given.
#[derive(Clone, Copy, Debug, PartialEq, Eq)]
pub struct Case<'a> {
    /// 0 Format, 1 InlineAsm, 2 Diagnostic; anything else is refused.
    pub mode: u8,
    /// The number of hashes of a raw string.
    pub style: Option<u16>,
    pub snippet: Option<&'a [u8]>,
    pub appended_newline: bool,
    /// The room for pieces, errors, argument places and line spans.
    pub rooms: [u16; 4],
    pub text: &'a [u8],
}

impl<'a> Case<'a> {
    /// A text with nothing around it, and all the room there is.
    pub fn plain(mode: u8, text: &'a [u8]) -> Self {
        let rooms = [LARGEST_ROOM; 4];
        Case { mode, style: None, snippet: None, appended_newline: false, rooms, text }
    }

    /// Writes the case as it stands in a stream.
    pub fn write(&self, output: &mut impl Write) -> io::Result<()> {
        let snippet = self.snippet.unwrap_or_default();
        let mut header = Vec::with_capacity(HEADER);
        header.extend([self.mode, u8::from(self.style.is_some())]);
        header.extend(self.style.unwrap_or(0).to_le_bytes());
        header.extend([u8::from(self.snippet.is_some()), u8::from(self.appended_newline)]);
        header.extend(self.rooms.iter().flat_map(|room| room.to_le_bytes()));
        header.extend(three_bytes(snippet.len()));
        header.extend(three_bytes(self.text.len()));
        output.write_all(&header)?;
        output.write_all(snippet)?;
        output.write_all(self.text)
    }
}

/// A length, low byte first.
fn three_bytes(length: usize) -> [u8; 3] {
    let bytes = length.to_le_bytes();
    [bytes[0], bytes[1], bytes[2]]
}

/// What a stream gives next.
pub enum Next<'a> {
    Case(Case<'a>),
    /// The stream ended after a whole case.
    End,
    /// The stream breaks off within a case, or the case is longer than a stream may hold.
    Broken,
}

/// Reads the cases of a stream one after the other into buffers of its own.
pub struct Stream<R> {
    input: R,
    snippet: Vec<u8>,
    text: Vec<u8>,
}

impl<R: Read> Stream<R> {
    pub fn new(input: R) -> Self {
        Stream { input, snippet: Vec::new(), text: Vec::new() }
    }

    /// The next case, valid until the one after it is asked for.
    pub fn next_case(&mut self) -> io::Result<Next<'_>> {
        let mut header = [0; HEADER];
        match read_fully(&mut self.input, &mut header)? {
            0 => return Ok(Next::End),
            HEADER => {}
            _ => return Ok(Next::Broken),
        }
        let number = |at: usize| u16::from_le_bytes([header[at], header[at + 1]]);
        let length = |at: usize| usize::from(number(at)) + (usize::from(header[at + 2]) << 16);
        if !self.read_bytes(length(14), length(17))? {
            return Ok(Next::Broken);
        }
        Ok(Next::Case(Case {
            mode: header[0],
            style: (header[1] == 1).then(|| number(2)),
            snippet: (header[4] == 1).then_some(&self.snippet),
            appended_newline: header[5] == 1,
            rooms: [number(6), number(8), number(10), number(12)],
            text: &self.text,
        }))
    }

    /// Reads a snippet and a text of these lengths; false if they are too long or not there.
    fn read_bytes(&mut self, snippet: usize, text: usize) -> io::Result<bool> {
        if snippet > LONGEST || text > LONGEST {
            return Ok(false);
        }
        self.snippet.resize(snippet, 0);
        self.text.resize(text, 0);
        Ok(read_fully(&mut self.input, &mut self.snippet)? == snippet
            && read_fully(&mut self.input, &mut self.text)? == text)
    }
}

/// Fills the buffer as far as the input goes, and says how far that is.
fn read_fully(input: &mut impl Read, buffer: &mut [u8]) -> io::Result<usize> {
    let mut filled = 0;
    while filled < buffer.len() {
        match input.read(&mut buffer[filled..])? {
            0 => break,
            count => filled += count,
        }
    }
    Ok(filled)
}
