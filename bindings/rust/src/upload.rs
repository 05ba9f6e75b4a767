//! A text that arrives in parts.

use crate::{ParseMode, Parsed, Refused, accepted, parsed, raw};

/// A text that arrives in parts, cut anywhere, perhaps inside a letter. It owns the buffer that they are taken into.
///
/// ```
/// use nitarehpu::{ParseMode, Upload, parse};
/// let mut upload = Upload::new();
/// for part in ["{gr".as_bytes(), b"\xC3", b"\xB8nt}", b""] {
///     upload.part(part);
/// }
/// assert_eq!(upload.finish(None, None, false, ParseMode::Format), parse("{grønt}", None, None, false, ParseMode::Format));
/// ```
#[derive(Clone, Debug)]
pub struct Upload {
    state: raw::State,
    buffer: Box<[u8]>,
}

impl Default for Upload {
    fn default() -> Self {
        Self::new()
    }
}

impl Upload {
    pub fn new() -> Self {
        Upload { state: [0; 3], buffer: vec![0; raw::LONGEST].into() }
    }

    /// Takes the next part. One with which the text would pass 65,535 bytes is left out with all after it, and the finish says so.
    pub fn part(&mut self, bytes: &[u8]) {
        let number = raw::part(&mut self.state, &mut self.buffer, bytes);
        assert_eq!(number, 0, "an upload's state fits its buffer");
    }

    /// Reads the parts, joined: what `parse` answers for them, or `Refused::Utf8` where they are not UTF-8. Parts may still follow, and another finish.
    pub fn finish(
        &self,
        style: Option<usize>,
        snippet: Option<&str>,
        append_newline: bool,
        mode: ParseMode,
    ) -> Result<Parsed, Refused> {
        let request = raw::Request {
            mode: mode as u8,
            style,
            snippet: snippet.map(str::as_bytes),
            newline: append_newline,
        };
        // No text has more pieces, errors or places than bytes, and each line but the last ends in one.
        let bytes = self.state[0];
        let mut pieces = vec![0; raw::PIECE * bytes];
        let mut errors = vec![0; raw::ERROR * bytes];
        let mut places = vec![0; 2 * bytes];
        let mut lines = vec![0; 2 * (bytes + 1)];
        let mut lists = raw::Lists { pieces: &mut pieces, errors: &mut errors, places: &mut places, lines: &mut lines };
        let answer = raw::finish(&self.state, &self.buffer, request, &mut lists);
        if answer.number == 4 {
            return Err(Refused::Utf8(answer.place));
        }
        accepted(answer)?;
        let text = std::str::from_utf8(&self.buffer[..bytes]).expect("a text that is read is UTF-8");
        Ok(parsed(text, answer, &lists))
    }
}
