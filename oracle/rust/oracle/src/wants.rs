//! How many arguments the Rust's pieces want: one more than the largest argument number in any
//! piece's place, width, precision or star, and 0 if none has one. What is over range adds nothing.

use crate::ranges::is_over;
use crate::reading::{PieceRecord, Reading};
use parse_format::{Argument, Count, Position};
use std::ops::Range;

impl Reading<'_> {
    /// One more than the largest argument number, or 0.
    pub fn arguments(&self) -> usize {
        let numbers = self.pieces.iter().flat_map(|piece| match piece {
            PieceRecord::Literal(_) => [None; 3],
            PieceRecord::Argument(bytes, argument) => self.numbers(bytes.start, argument),
        });
        numbers.flatten().max().map_or(0, |largest| largest + 1)
    }

    /// The argument numbers of a placeholder's place, width and precision.
    fn numbers(&self, brace: usize, argument: &Argument<'_>) -> [Option<usize>; 3] {
        let spec = &argument.format;
        let place = match argument.position {
            Position::ArgumentImplicitlyIs(index) => Some(index),
            // The place stands directly behind the brace.
            Position::ArgumentIs(index) => (!is_over(self.text, brace + 1)).then_some(index),
            Position::ArgumentNamed(_) => None,
        };
        let width = self.number_of(&spec.width, spec.width_span.as_ref(), 0);
        [place, width, self.number_of(&spec.precision, spec.precision_span.as_ref(), 1)]
    }

    /// A count's argument number, if it has one; the count starts so many bytes behind its span's start.
    fn number_of(
        &self,
        count: &Count<'_>,
        span: Option<&Range<usize>>,
        dot: usize,
    ) -> Option<usize> {
        match count {
            Count::CountIsParam(index) => (!self.is_count_over(span, dot)).then_some(*index),
            Count::CountIsStar(index) => Some(*index),
            Count::CountIs(_) | Count::CountIsName(..) | Count::CountImplied => None,
        }
    }

    /// Whether the digits of a count spell more than is kept.
    pub fn is_count_over(&self, span: Option<&Range<usize>>, dot: usize) -> bool {
        let span = span.expect("a count with a number has a span");
        is_over(self.text, span.start - self.quote_offset + dot)
    }
}
