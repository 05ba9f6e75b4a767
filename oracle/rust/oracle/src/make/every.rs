//! Every text up to a length over an alphabet, in all three modes.

use crate::case::Case;
use std::io::{self, Write};

/// The texts of up to `length` characters of the alphabet, behind the prefix.
pub struct Every {
    length: usize,
    alphabet: Vec<char>,
    prefix: String,
}

impl Every {
    /// From words of a command line, in which `\n` is a newline, `\t` a tabulator and `\\` a
    /// backslash; nothing if they make no sense.
    pub fn from_words(length: &str, alphabet: &str, prefix: &str) -> Option<Self> {
        let alphabet: Vec<char> = unescape(alphabet).chars().collect();
        let length = length.parse().ok()?;
        (!alphabet.is_empty()).then(|| Every { length, alphabet, prefix: unescape(prefix) })
    }

    /// Does something with each text: shorter ones first, and the last character changing fastest.
    pub fn try_for_each<E>(&self, mut act: impl FnMut(&str) -> Result<(), E>) -> Result<(), E> {
        let mut text = String::new();
        for length in 0..=self.length {
            let mut wheels = vec![0; length];
            loop {
                text.clone_from(&self.prefix);
                text.extend(wheels.iter().map(|&wheel| self.alphabet[wheel]));
                act(&text)?;
                if !turn(&mut wheels, self.alphabet.len()) {
                    break;
                }
            }
        }
        Ok(())
    }

    /// Writes a case for each text in each mode.
    pub fn write(&self, output: &mut impl Write) -> io::Result<()> {
        self.try_for_each(|text| {
            (0..=2).try_for_each(|mode| Case::plain(mode, text.as_bytes()).write(output))
        })
    }
}

/// Turns the wheels to the next text; false when they have come round.
fn turn(wheels: &mut [usize], size: usize) -> bool {
    for wheel in wheels.iter_mut().rev() {
        *wheel += 1;
        if *wheel < size {
            return true;
        }
        *wheel = 0;
    }
    false
}

/// The characters that are awkward to write in a shell.
fn unescape(word: &str) -> String {
    let mut result = String::new();
    let mut characters = word.chars();
    while let Some(c) = characters.next() {
        let escaped = if c == '\\' { characters.next() } else { None };
        result.push(match escaped {
            Some('n') => '\n',
            Some('t') => '\t',
            Some(other) => other,
            None => c,
        });
    }
    result
}
