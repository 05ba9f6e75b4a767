//! The library's call, on lists of numbers, without what its C form leaves to the caller: slices know their lengths and do not overlap.

/// The numbers of a piece and of an error record.
pub const PIECE: usize = 40;
pub const ERROR: usize = 16;
/// Bytes of the longest text that is read.
pub const LONGEST: usize = 65_535;

unsafe extern "C" {
    fn nitarehpu_read(
        text: *const u8,
        text_length: usize,
        snippet: *const u8,
        snippet_length: usize,
        mode: u8,
        style: u8,
        hashes: usize,
        given: u8,
        newline: u8,
        pieces: *mut u32,
        pieces_length: usize,
        errors: *mut u32,
        errors_length: usize,
        places: *mut usize,
        places_length: usize,
        lines: *mut usize,
        lines_length: usize,
        answer: *mut usize,
        answer_length: usize,
    ) -> u8;

    fn nitarehpu_count(
        text: *const u8,
        text_length: usize,
        snippet: *const u8,
        snippet_length: usize,
        mode: u8,
        style: u8,
        hashes: usize,
        given: u8,
        newline: u8,
        answer: *mut usize,
        answer_length: usize,
    ) -> u8;

    fn nitarehpu_part(
        state: *mut usize,
        state_length: usize,
        buffer: *mut u8,
        buffer_length: usize,
        bytes: *const u8,
        bytes_length: usize,
    ) -> u8;

    fn nitarehpu_finish(
        state: *const usize,
        state_length: usize,
        buffer: *const u8,
        buffer_length: usize,
        snippet: *const u8,
        snippet_length: usize,
        mode: u8,
        style: u8,
        hashes: usize,
        given: u8,
        newline: u8,
        pieces: *mut u32,
        pieces_length: usize,
        errors: *mut u32,
        errors_length: usize,
        places: *mut usize,
        places_length: usize,
        lines: *mut usize,
        lines_length: usize,
        answer: *mut usize,
        answer_length: usize,
    ) -> u8;

    fn nitarehpu_member(
        text: *const u8,
        text_length: usize,
        snippet: *const u8,
        snippet_length: usize,
        mode: u8,
        style: u8,
        hashes: usize,
        given: u8,
        newline: u8,
        answer: *mut usize,
        answer_length: usize,
    ) -> u8;

    fn nitarehpu_plain(
        text: *const u8,
        text_length: usize,
        mode: u8,
        output: *mut u8,
        output_length: usize,
        answer: *mut usize,
        answer_length: usize,
    ) -> u8;
}

/// How a text is to be read, in the call's numbers.
#[derive(Clone, Copy, Debug)]
pub struct Request<'a> {
    pub mode: u8,
    /// The hashes of a raw string, if the text has a style.
    pub style: Option<usize>,
    pub snippet: Option<&'a [u8]>,
    pub newline: bool,
}

/// The answer's numbers.
#[derive(Clone, Copy, Debug, Default, PartialEq, Eq)]
pub struct Answer {
    pub number: usize,
    pub place: usize,
    pub pieces: usize,
    pub errors: usize,
    pub places: usize,
    pub lines: usize,
    /// How many arguments the pieces want, of a call that is done.
    pub arguments: usize,
    /// How many characters were passed, of a call that is done.
    pub moves: usize,
}

/// How many numbers an answer has.
const ANSWER: usize = 8;

/// The lent lists.
pub struct Lists<'a> {
    pub pieces: &'a mut [u32],
    pub errors: &'a mut [u32],
    pub places: &'a mut [usize],
    pub lines: &'a mut [usize],
}

fn answered([number, place, pieces, errors, places, lines, arguments, moves]: [usize; ANSWER]) -> Answer {
    Answer { number, place, pieces, errors, places, lines, arguments, moves }
}

/// Reads a text into lent lists.
pub fn read(text: &[u8], request: Request<'_>, lists: &mut Lists<'_>) -> Answer {
    let snippet = request.snippet.unwrap_or_default();
    let mut answer = [0; ANSWER];
    // SAFETY: each pointer goes with its slice's length, and Rust's rules keep the slices that are written apart from all others.
    unsafe {
        nitarehpu_read(
            text.as_ptr(),
            text.len(),
            snippet.as_ptr(),
            snippet.len(),
            request.mode,
            u8::from(request.style.is_some()),
            request.style.unwrap_or(0),
            u8::from(request.snippet.is_some()),
            u8::from(request.newline),
            lists.pieces.as_mut_ptr(),
            lists.pieces.len(),
            lists.errors.as_mut_ptr(),
            lists.errors.len(),
            lists.places.as_mut_ptr(),
            lists.places.len(),
            lists.lines.as_mut_ptr(),
            lists.lines.len(),
            answer.as_mut_ptr(),
            answer.len(),
        );
    }
    answered(answer)
}

/// How many records each list of a reading needs.
pub fn count(text: &[u8], request: Request<'_>) -> Answer {
    let snippet = request.snippet.unwrap_or_default();
    let mut answer = [0; ANSWER];
    // SAFETY: as above.
    unsafe {
        nitarehpu_count(
            text.as_ptr(),
            text.len(),
            snippet.as_ptr(),
            snippet.len(),
            request.mode,
            u8::from(request.style.is_some()),
            request.style.unwrap_or(0),
            u8::from(request.snippet.is_some()),
            u8::from(request.newline),
            answer.as_mut_ptr(),
            answer.len(),
        );
    }
    answered(answer)
}

/// What is kept between the parts of a text: how many bytes of the buffer are taken, up to which of them the text is UTF-8, and whether a part was left out.
pub type State = [usize; 3];

/// Takes a part of a text into a lent buffer: 0, or 16 where the state does not fit the buffer.
pub fn part(state: &mut State, buffer: &mut [u8], bytes: &[u8]) -> u8 {
    // SAFETY: as above.
    unsafe { nitarehpu_part(state.as_mut_ptr(), state.len(), buffer.as_mut_ptr(), buffer.len(), bytes.as_ptr(), bytes.len()) }
}

/// Reads the text that was taken into lent lists.
pub fn finish(state: &State, buffer: &[u8], request: Request<'_>, lists: &mut Lists<'_>) -> Answer {
    let snippet = request.snippet.unwrap_or_default();
    let mut answer = [0; ANSWER];
    // SAFETY: as above.
    unsafe {
        nitarehpu_finish(
            state.as_ptr(),
            state.len(),
            buffer.as_ptr(),
            buffer.len(),
            snippet.as_ptr(),
            snippet.len(),
            request.mode,
            u8::from(request.style.is_some()),
            request.style.unwrap_or(0),
            u8::from(request.snippet.is_some()),
            u8::from(request.newline),
            lists.pieces.as_mut_ptr(),
            lists.pieces.len(),
            lists.errors.as_mut_ptr(),
            lists.errors.len(),
            lists.places.as_mut_ptr(),
            lists.places.len(),
            lists.lines.as_mut_ptr(),
            lists.lines.len(),
            answer.as_mut_ptr(),
            answer.len(),
        );
    }
    answered(answer)
}

/// A verdict's numbers.
#[derive(Clone, Copy, Debug, Default, PartialEq, Eq)]
pub struct Told {
    pub number: usize,
    pub place: usize,
    /// The broken rule, 1 to 5, or 0.
    pub rule: usize,
    pub piece: usize,
}

/// The verdict on a text: whether it is a member template.
pub fn member(text: &[u8], request: Request<'_>) -> Told {
    let snippet = request.snippet.unwrap_or_default();
    let mut answer = [0; 4];
    // SAFETY: as above.
    unsafe {
        nitarehpu_member(
            text.as_ptr(),
            text.len(),
            snippet.as_ptr(),
            snippet.len(),
            request.mode,
            u8::from(request.style.is_some()),
            request.style.unwrap_or(0),
            u8::from(request.snippet.is_some()),
            u8::from(request.newline),
            answer.as_mut_ptr(),
            answer.len(),
        );
    }
    let [number, place, rule, piece] = answer;
    Told { number, place, rule, piece }
}

/// The numbers that a call for a plain form answers.
#[derive(Clone, Copy, Debug, Default, PartialEq, Eq)]
pub struct Tidied {
    pub number: usize,
    pub place: usize,
    /// How many bytes the plain form has, where it is written or the output is too short.
    pub bytes: usize,
    /// How many arguments its pieces want, where it is written.
    pub arguments: usize,
}

/// Writes the plain form of a text over the start of a lent output; a refusal leaves the output as it was.
pub fn plain(text: &[u8], mode: u8, output: &mut [u8]) -> Tidied {
    let mut answer = [0; 4];
    // SAFETY: as above.
    unsafe {
        nitarehpu_plain(
            text.as_ptr(),
            text.len(),
            mode,
            output.as_mut_ptr(),
            output.len(),
            answer.as_mut_ptr(),
            answer.len(),
        );
    }
    let [number, place, bytes, arguments] = answer;
    Tidied { number, place, bytes, arguments }
}
