//! The words of a line, read one after the other.

use super::notation;
use crate::model::{Place, Settings};

/// What is left of a line.
pub struct Arguments<'a> {
    rest: &'a str,
}

impl<'a> Arguments<'a> {
    pub fn of(line: &'a str) -> Self {
        Arguments { rest: line }
    }

    /// The next word, up to a blank or the end.
    pub fn word(&mut self) -> &'a str {
        let (word, rest) = self.rest.split_once(' ').unwrap_or((self.rest, ""));
        self.rest = rest;
        word
    }

    /// The next word as a decimal number of a type that can hold it.
    pub fn number<N: TryFrom<u32>>(&mut self) -> Option<N> {
        notation::number(self.word(), 10)?.try_into().ok()
    }

    /// The next word as the length of a buffer that has so many elements at most.
    pub fn room(&mut self, most: usize) -> Option<usize> {
        self.number().filter(|&room| room <= most)
    }

    /// A, mi, mo and T.
    pub fn settings(&mut self) -> Option<Settings> {
        Some(Settings {
            activities: self.number()?,
            inputs: self.number()?,
            outputs: self.number()?,
            threshold: self.number()?,
        })
    }

    /// The next word as a place, its sets with a slash between them.
    pub fn place(&mut self) -> Option<Place> {
        let (inputs, outputs) = self.word().split_once('/')?;
        let set = |digits| notation::number(digits, 16)?.try_into().ok();
        Some(Place {
            inputs: set(inputs)?,
            outputs: set(outputs)?,
        })
    }

    /// The rest of the line as a text.
    pub fn text(self) -> Option<Vec<u8>> {
        notation::text(self.rest)
    }

    /// The rest of the line as a list.
    pub fn list(self) -> Option<Vec<u32>> {
        notation::list(self.rest)
    }
}
