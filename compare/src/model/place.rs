//! Places: pairs of activity sets.

use super::Refusal;

/// Inputs and outputs, activity `a` standing for bit `a`.
#[derive(Clone, Copy, Debug, PartialEq, Eq)]
pub struct Place {
    pub inputs: u16,
    pub outputs: u16,
}

impl Place {
    /// The place that a word of a list stands for.
    pub fn from_word(word: u32) -> Place {
        Place {
            inputs: word as u16,
            outputs: (word >> 16) as u16,
        }
    }

    /// The word of a list that stands for the place.
    pub fn word(self) -> u32 {
        u32::from(self.inputs) | u32::from(self.outputs) << 16
    }

    /// Whether both sets are non-empty and name only codes below the activity bound.
    pub fn is_valid(self, activities: u8) -> bool {
        let known = |set: u16| set != 0 && u32::from(set) >> activities == 0;
        known(self.inputs) && known(self.outputs)
    }

    /// Whether it has at most the other's inputs and at least the other's outputs.
    pub fn is_at_least_as_light_as(self, other: Place) -> bool {
        self.inputs & !other.inputs == 0 && other.outputs & !self.outputs == 0
    }
}

/// Checks the one place of a call.
pub fn check_place(activities: u8, place: Place) -> Result<(), Refusal> {
    if place.is_valid(activities) {
        Ok(())
    } else {
        Err(Refusal::InvalidPlace { index: 0 })
    }
}

/// Checks a list, where the activity bound is the highest.
pub fn check_words(words: &[u32]) -> Result<(), Refusal> {
    let invalid = |&word: &u32| !Place::from_word(word).is_valid(super::MOST_ACTIVITIES);
    match words.iter().position(invalid) {
        Some(index) => Err(Refusal::InvalidPlace {
            index: index as u64,
        }),
        None => Ok(()),
    }
}
