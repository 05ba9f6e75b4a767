//! Pairs of texts without errors, joined: whether the Rust's pieces of the joined text are the join
//! of the Rust's pieces of the two.

use crate::joins::{Piece, Sheet, is_within, join, number_of_both, pieces_of, starts_with_doubled};
use crate::make::dice::Dice;
use crate::make::every::Every;
use crate::make::texts;
use std::convert::Infallible;

/// The styles in which every pair is read: none, and raw strings of 0 and 255 hashes.
const STYLES: [Option<u16>; 3] = [None, Some(0), Some(255)];
/// Texts as long as this are not joined again.
const LONG: usize = 2_000;

/// What the comparison found.
#[derive(Default)]
pub struct Tally {
    /// The pairs within the premise, in each mode.
    pub within: [u64; 3],
    /// Of these: two literals that become one, or stay two for a doubled brace.
    pub become_one: u64,
    pub stay_two: u64,
    /// Of these: numbers of the second that are raised by one or more.
    pub raised: u64,
    /// Pairs that are not within the premise, and those that join all the same.
    pub outside: u64,
    pub outside_joined: u64,
    pub counterexamples: u64,
    pub first: Option<String>,
}

impl Tally {
    /// Every pair of the texts, in each mode and in three styles.
    pub fn of_every(every: &Every) -> Self {
        let mut tally = Tally::default();
        for mode in 0..=2 {
            for style in STYLES {
                let mut sheets = Vec::new();
                let Ok(()) = every.try_for_each::<Infallible>(|text| {
                    sheets.extend(Sheet::of(mode, style, text));
                    Ok(())
                });
                for first in &sheets {
                    for second in &sheets {
                        tally.add(mode, style, first, second);
                    }
                }
            }
        }
        tally
    }

    /// Seeded random pairs. What was joined is often the first text of the next pair, as a heading
    /// and a body are of a footer.
    pub fn of_random(seed: u64, count: u64) -> Self {
        let (mut tally, mut dice) = (Tally::default(), Dice::new(seed));
        let mut left = count;
        while left > 0 {
            let mode = dice.pick(&[0, 0, 1, 2]);
            let hashes = dice.below(256) as u16;
            let style = dice.pick(&[None, Some(0), Some(hashes)]);
            let mut first = draw(&mut dice, mode, style);
            loop {
                let second = draw(&mut dice, mode, style);
                let joined = tally.add(mode, style, &first, &second);
                left -= 1;
                match joined {
                    Some(joined) if left > 0 && joined.text.len() < LONG && dice.once_in(2) => {
                        first = joined;
                    }
                    _ => break,
                }
            }
        }
        tally
    }

    /// Joins two texts, and gives the joined one if the Rust reads it without error.
    fn add(
        &mut self,
        mode: u8,
        style: Option<u16>,
        first: &Sheet,
        second: &Sheet,
    ) -> Option<Sheet> {
        let text = format!("{}{}", first.text, second.text);
        let found = pieces_of(mode, style, &text);
        let expected = join(first, second);
        let is_joined = found.as_ref() == Some(&expected);
        if is_within(mode, &first.text, &second.text) {
            self.within[usize::from(mode)] += 1;
            self.note(first, second);
            if !is_joined {
                self.counterexamples += 1;
                self.first.get_or_insert_with(|| {
                    format!("{first:?}\n{second:?}\nmode {mode} style {style:?}: {found:?}")
                });
            }
        } else {
            self.outside += 1;
            self.outside_joined += u64::from(is_joined);
        }
        found.map(|pieces| Sheet { text, pieces })
    }

    /// Counts what the pair shows.
    fn note(&mut self, first: &Sheet, second: &Sheet) {
        let meet = matches!(
            (first.pieces.last(), second.pieces.first()),
            (Some(Piece::Literal(_)), Some(Piece::Literal(_)))
        );
        let doubled = starts_with_doubled(&second.text);
        self.become_one += u64::from(meet && !doubled);
        self.stay_two += u64::from(meet && doubled);
        let raised = number_of_both(&first.pieces) > 0 && number_of_both(&second.pieces) > 0;
        self.raised += u64::from(raised);
    }

    pub fn print(&self) {
        for (mode, pairs) in ["Format", "InlineAsm", "Diagnostic"].iter().zip(self.within) {
            println!("pairs in {mode} {pairs}");
        }
        println!("literals that become one {}", self.become_one);
        println!("literals that stay two {}", self.stay_two);
        println!("numbers raised {}", self.raised);
        println!("outside the premise {}", self.outside);
        println!("of these joined {}", self.outside_joined);
        println!("counterexamples {}", self.counterexamples);
        if let Some(first) = &self.first {
            println!("{first}");
        }
    }
}

/// A random text without errors. Some end in `:}` and some start with an align, as the premise asks.
fn draw(dice: &mut Dice, mode: u8, style: Option<u16>) -> Sheet {
    loop {
        let text = if dice.once_in(5) { texts::lines(dice) } else { texts::text(dice) };
        let text = match dice.below(12) {
            0 => format!("{text}{{:}}"),
            1 => format!("{}{text}", dice.pick(&["<", ">", "^"])),
            2 => format!("{text}{{:.*}}"),
            _ => text,
        };
        if let Some(sheet) = Sheet::of(mode, style, &text) {
            return sheet;
        }
    }
}
