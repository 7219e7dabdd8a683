//! The settings of a call and their ranges.

use super::Refusal;

/// The most activities that a log can use.
pub const MOST_ACTIVITIES: u8 = 16;

/// The settings of a search: activity bound, most inputs, most outputs, threshold in thousandths.
#[derive(Clone, Copy, Debug, PartialEq, Eq)]
pub struct Settings {
    pub activities: u8,
    pub inputs: u8,
    pub outputs: u8,
    pub threshold: u16,
}

impl Settings {
    /// Checks all four ranges.
    pub fn check(self) -> Result<(), Refusal> {
        check_activities(self.activities)?;
        check_threshold(self.threshold)?;
        let sizes = 1..=self.activities;
        if sizes.contains(&self.inputs) && sizes.contains(&self.outputs) {
            Ok(())
        } else {
            Err(Refusal::InvalidSetting)
        }
    }
}

/// Checks the range of the activity bound.
pub fn check_activities(activities: u8) -> Result<(), Refusal> {
    if (2..=MOST_ACTIVITIES).contains(&activities) {
        Ok(())
    } else {
        Err(Refusal::InvalidSetting)
    }
}

/// Checks the range of the threshold.
pub fn check_threshold(threshold: u16) -> Result<(), Refusal> {
    if threshold <= 1000 {
        Ok(())
    } else {
        Err(Refusal::InvalidSetting)
    }
}
