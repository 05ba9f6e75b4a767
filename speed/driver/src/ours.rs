//! The reader, through its C boundary. The lists are made once, large enough for any text here, and are not cleared between calls.

unsafe extern "C" {
    fn nitarehpu_read(
        text: *const u8,
        text_length: usize,
        snippet: *const u8,
        snippet_length: usize,
        mode: u8,
        style: u8,
        hashes: usize,
        given: u8,
        newline: u8,
        pieces: *mut u32,
        pieces_length: usize,
        errors: *mut u32,
        errors_length: usize,
        places: *mut usize,
        places_length: usize,
        lines: *mut usize,
        lines_length: usize,
        answer: *mut usize,
        answer_length: usize,
    ) -> u8;

    fn nitarehpu_count(
        text: *const u8,
        text_length: usize,
        snippet: *const u8,
        snippet_length: usize,
        mode: u8,
        style: u8,
        hashes: usize,
        given: u8,
        newline: u8,
        answer: *mut usize,
        answer_length: usize,
    ) -> u8;

    fn nitarehpu_member(
        text: *const u8,
        text_length: usize,
        snippet: *const u8,
        snippet_length: usize,
        mode: u8,
        style: u8,
        hashes: usize,
        given: u8,
        newline: u8,
        answer: *mut usize,
        answer_length: usize,
    ) -> u8;
}

/// The verdict on a Format text without style or snippet: its four numbers.
pub fn verdict(text: &[u8]) -> [usize; 4] {
    let mut answer = [0; 4];
    // SAFETY: each pointer goes with its own length, and the answer overlaps nothing.
    unsafe { nitarehpu_member(text.as_ptr(), text.len(), text.as_ptr(), 0, 0, 0, 0, 0, 0, answer.as_mut_ptr(), answer.len()) };
    answer
}

/// The eight numbers of the answer to a count of a Format text without style or snippet: the third is how many pieces it has.
pub fn count(text: &[u8]) -> [usize; 8] {
    let mut answer = [0; 8];
    // SAFETY: each pointer goes with its own length, and the answer overlaps nothing.
    unsafe { nitarehpu_count(text.as_ptr(), text.len(), text.as_ptr(), 0, 0, 0, 0, 0, 0, answer.as_mut_ptr(), answer.len()) };
    answer
}

pub struct Reader {
    pieces: Vec<u32>,
    errors: Vec<u32>,
    answer: [usize; 8],
}

impl Reader {
    /// Lists with room for a record a byte.
    pub fn new(bytes: usize) -> Self {
        Reader { pieces: vec![0; 40 * bytes], errors: vec![0; 16 * bytes], answer: [0; 8] }
    }

    /// Lists with room for so many pieces, and for an error record.
    pub fn narrow(pieces: usize) -> Self {
        Reader { pieces: vec![0; 40 * pieces], errors: vec![0; 16], answer: [0; 8] }
    }

    /// Reads a Format text without style or snippet: the answer's number, and how many pieces and errors there are.
    pub fn read(&mut self, text: &[u8]) -> (u8, usize, usize) {
        self.read_as(text, 0)
    }

    /// Reads a text of a mode, without style or snippet.
    pub fn read_as(&mut self, text: &[u8], mode: u8) -> (u8, usize, usize) {
        let mut none = [0usize; 2];
        let mut nothing = [0usize; 2];
        // SAFETY: each pointer goes with its own length, and no two lists overlap.
        let number = unsafe {
            nitarehpu_read(
                text.as_ptr(),
                text.len(),
                text.as_ptr(),
                0,
                mode,
                0,
                0,
                0,
                0,
                self.pieces.as_mut_ptr(),
                self.pieces.len(),
                self.errors.as_mut_ptr(),
                self.errors.len(),
                none.as_mut_ptr(),
                0,
                nothing.as_mut_ptr(),
                0,
                self.answer.as_mut_ptr(),
                8,
            )
        };
        (number, self.answer[2], self.answer[3])
    }
}
