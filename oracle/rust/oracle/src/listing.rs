//! The full listing of an answer, a line for each record.

use crate::answer::Answer;
use crate::error_record::ErrorRecord;
use crate::ranges::{is_over, range_of, type_range};
use crate::reading::{PieceRecord, Reading};
use parse_format::{Alignment, Argument, Count, DebugHex, FormatSpec, Position, Sign};
use std::ops::Range;

/// Lists cases into a buffer that the caller empties from time to time.
#[derive(Default)]
pub struct Listing {
    pub bytes: Vec<u8>,
    cases: usize,
}

impl Listing {
    /// Lists the answer to the next case.
    pub fn answer(&mut self, answer: &Answer<'_>) {
        let case = self.cases;
        self.cases += 1;
        self.word("case").number(case).end();
        self.word("answer").number(answer.number.into()).number(answer.place);
        for &count in &answer.counts {
            self.number(count);
        }
        self.word("arguments").number(answer.arguments);
        self.word("moves").number(answer.moves).end();
        if let Some(reading) = &answer.reading {
            self.reading(reading);
        }
    }

    /// Says that the stream broke off.
    pub fn broken_stream(&mut self) {
        self.word("stream").end();
    }

    fn reading(&mut self, reading: &Reading<'_>) {
        for piece in &reading.pieces {
            match piece {
                PieceRecord::Literal(bytes) => self.word("lit").bytes(bytes).end(),
                PieceRecord::Argument(bytes, argument) => self.argument(reading, bytes, argument),
            }
        }
        for (error, &piece) in reading.errors.iter().zip(&reading.pieces_before) {
            self.error(&ErrorRecord::of(error, reading.text, reading.quote_offset, piece));
        }
        for place in &reading.places {
            self.word("place").span(place).end();
        }
        for line in &reading.lines {
            self.word("line").span(line).end();
        }
    }

    fn argument(&mut self, reading: &Reading<'_>, bytes: &Range<usize>, argument: &Argument<'_>) {
        let text = reading.text;
        self.word("arg").bytes(bytes);
        match argument.position {
            Position::ArgumentImplicitlyIs(index) => self.word("next").number(index),
            // The place stands directly behind the brace.
            Position::ArgumentIs(_) if is_over(text, bytes.start + 1) => self.word("over"),
            Position::ArgumentIs(index) => self.word("at").number(index),
            Position::ArgumentNamed(word) => self.word("name").bytes(&range_of(text, word)),
        };
        self.word("span").span(&argument.position_span);
        self.spec(reading, &argument.format);
        self.word("type").bytes(&type_range(text, bytes.start, argument));
        self.optional_span(argument.format.ty_span.as_ref()).end();
    }

    /// The parts of a spec before its type.
    fn spec(&mut self, reading: &Reading<'_>, spec: &FormatSpec<'_>) {
        let (width, precision) = (spec.width_span.as_ref(), spec.precision_span.as_ref());
        self.word("fill");
        match (spec.fill, &spec.fill_span) {
            (Some(fill), Some(span)) => self.number(fill as usize).span(span),
            _ => self.word("-"),
        };
        self.word("align").number(align_number(spec.align));
        self.word("sign").number(sign_number(spec.sign));
        self.word("alt").number(spec.alternate.into());
        self.word("zero").number(spec.zero_pad.into());
        self.word("hex").number(hex_number(spec.debug_hex));
        self.word("width").count(reading, &spec.width, width, 0).optional_span(width);
        self.word("precision").count(reading, &spec.precision, precision, 1);
        self.optional_span(precision);
    }

    /// A count, which starts so many bytes behind its span's start.
    fn count(
        &mut self,
        reading: &Reading<'_>,
        count: &Count<'_>,
        span: Option<&Range<usize>>,
        dot: usize,
    ) -> &mut Self {
        match count {
            Count::CountImplied => self.word("implied"),
            Count::CountIs(number) => {
                self.word("fixed").numeral(reading, (*number).into(), span, dot)
            }
            Count::CountIsName(word, span) => {
                self.word("name").bytes(&range_of(reading.text, word)).span(span)
            }
            Count::CountIsParam(index) => self.word("arg").numeral(reading, *index, span, dot),
            Count::CountIsStar(index) => self.word("star").number(*index),
        }
    }

    /// The number of a count, or `over` where its digits spell more than is kept.
    fn numeral(
        &mut self,
        reading: &Reading<'_>,
        number: usize,
        span: Option<&Range<usize>>,
        dot: usize,
    ) -> &mut Self {
        if reading.is_count_over(span, dot) { self.word("over") } else { self.number(number) }
    }

    fn error(&mut self, error: &ErrorRecord<'_>) {
        self.word("err").number(error.kind.into()).span(error.span);
        self.word("second").optional_span(error.second);
        self.word("quoted").optional_span(error.quoted.as_ref());
        self.word("suggestion").optional_span(error.suggestion);
        self.word("piece").number(error.piece).end();
    }

    /// `A B`, a byte range of the text.
    fn bytes(&mut self, range: &Range<usize>) -> &mut Self {
        self.number(range.start).number(range.end)
    }

    /// `S..E`.
    fn span(&mut self, span: &Range<usize>) -> &mut Self {
        self.digits(span.start);
        self.bytes.extend_from_slice(b"..");
        self.digits(span.end);
        self.bytes.push(b' ');
        self
    }

    /// `S..E`, or `-` where there is none.
    fn optional_span(&mut self, span: Option<&Range<usize>>) -> &mut Self {
        match span {
            Some(span) => self.span(span),
            None => self.word("-"),
        }
    }

    fn word(&mut self, word: &str) -> &mut Self {
        self.bytes.extend_from_slice(word.as_bytes());
        self.bytes.push(b' ');
        self
    }

    fn number(&mut self, number: usize) -> &mut Self {
        self.digits(number);
        self.bytes.push(b' ');
        self
    }

    /// A number in decimal. Formatting with `write!` took most of a listing's time.
    fn digits(&mut self, mut number: usize) {
        let mut digits = [0; 20];
        let mut first = digits.len();
        loop {
            first -= 1;
            digits[first] = b'0' + (number % 10) as u8;
            number /= 10;
            if number == 0 {
                break;
            }
        }
        self.bytes.extend_from_slice(&digits[first..]);
    }

    /// Ends the line, in place of the last blank.
    fn end(&mut self) {
        if let Some(blank) = self.bytes.last_mut() {
            *blank = b'\n';
        }
    }
}

fn align_number(align: Alignment) -> usize {
    match align {
        Alignment::AlignUnknown => 0,
        Alignment::AlignLeft => 1,
        Alignment::AlignRight => 2,
        Alignment::AlignCenter => 3,
    }
}

fn sign_number(sign: Option<Sign>) -> usize {
    match sign {
        None => 0,
        Some(Sign::Plus) => 1,
        Some(Sign::Minus) => 2,
    }
}

fn hex_number(hex: Option<DebugHex>) -> usize {
    match hex {
        None => 0,
        Some(DebugHex::Lower) => 1,
        Some(DebugHex::Upper) => 2,
    }
}
