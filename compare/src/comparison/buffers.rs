//! Buffers whose every element is compared, with guards on both sides.

use std::fmt::Debug;

/// The elements on each side that no call may touch.
const GUARD: usize = 8;

/// A buffer between two guards, all filled with a pattern.
#[derive(Clone, PartialEq)]
pub struct Guarded<T> {
    all: Vec<T>,
}

impl<T: Copy + PartialEq + Debug> Guarded<T> {
    /// A buffer of so many elements, filled by a pattern of the position.
    pub fn new(length: usize, pattern: impl Fn(usize) -> T) -> Guarded<T> {
        let all = (0..length + 2 * GUARD).map(pattern).collect();
        Guarded { all }
    }

    /// A buffer that holds a copy of the items; the guards hold the filler.
    pub fn copy(items: &[T], filler: T) -> Guarded<T> {
        let guard = [filler; GUARD];
        let all = [&guard, items, &guard].concat();
        Guarded { all }
    }

    /// What a call is given.
    pub fn inside(&mut self) -> &mut [T] {
        let end = self.all.len() - GUARD;
        &mut self.all[GUARD..end]
    }

    /// Where the buffer first differs from the expected one.
    pub fn difference(&self, expected: &Guarded<T>) -> String {
        let mut pairs = self.all.iter().zip(&expected.all);
        match pairs.position(|(mine, other)| mine != other) {
            None => "as expected".to_string(),
            Some(position) => {
                let (mine, other) = (&self.all[position], &expected.all[position]);
                let index = position as i64 - GUARD as i64;
                format!("at index {index} {mine:X?} instead of {other:X?}")
            }
        }
    }
}

/// A byte that is no digit and no line feed.
pub fn byte_pattern(position: usize) -> u8 {
    0x80 | (position * 7) as u8
}

/// Words of a list: in every second buffer ones that could be taken for places.
pub fn word_pattern(plausible: bool) -> impl Fn(usize) -> u32 {
    move |position| match plausible {
        true => 0x0003_0001 + position as u32 % 7,
        false => 0xA5A5_0000 + position as u32,
    }
}

/// Words of entries: in every second buffer ones that could be taken for counts.
pub fn entry_pattern(plausible: bool) -> impl Fn(usize) -> u64 {
    move |position| match plausible {
        true => 1 + position as u64 % 3,
        false => 0xFEED_FACE_0000_0000 + position as u64,
    }
}

/// Rejected words: in every second buffer ones that would rule out much if they were read.
pub fn rejected_pattern(plausible: bool) -> impl Fn(usize) -> u64 {
    move |position| match (plausible, position % 2) {
        (true, 0) => 0x0000_0003_0001_FFFF,
        (true, _) => 0x0000_0002_FFFF_0001,
        (false, _) => 0xDEAD_BEEF_0000_0000 + position as u64,
    }
}
