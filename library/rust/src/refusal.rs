//! Why a call was refused.

use std::error::Error;
use std::fmt;

/// What was wrong, with its number in document 01.
///
/// Where several hold, the first of this order is given, by number: 1; 7; 8; 6; then what the first
/// line with a fault has, 5 for its index before 2, then 5 for its length, 3, 4. For
/// [`summarize`](crate::summarize) 8 comes last. A call skips the checks of what it is not given.
#[derive(Debug, Clone, Copy, PartialEq, Eq)]
#[repr(u8)]
#[non_exhaustive]
pub enum RefusalKind {
    /// A setting is out of its range: activities 2 to 16, most inputs and outputs 1 to
    /// `activities`, threshold 0 to 1000. The value is 0.
    InvalidSetting = 1,
    /// A line has no line feed, an odd number of digits or fewer than 12, a byte that is no digit,
    /// or a case count of 00000000. The value is the line.
    MalformedFrame = 2,
    /// An activity code is the bound or more. The value is the line.
    UnknownActivity = 3,
    /// A frame does not start with 00, does not end with 01, or has one of them in between. The
    /// value is the line.
    MisplacedEndpoint = 4,
    /// A frame has more than 254 activities, or the log more than 4,096 lines. The value is the
    /// line.
    TooLarge = 5,
    /// The text has no bytes. The value is 0.
    EmptyLog = 6,
    /// A set of a place is empty or has a code of the bound or more. The value is the index in the
    /// list, and 0 for one place.
    InvalidPlace = 7,
    /// The buffer to be written is too short. The value is 0.
    BufferTooSmall = 8,
}

impl RefusalKind {
    /// All kinds, by their numbers.
    pub const ALL: &'static [RefusalKind] = &[
        RefusalKind::InvalidSetting,
        RefusalKind::MalformedFrame,
        RefusalKind::UnknownActivity,
        RefusalKind::MisplacedEndpoint,
        RefusalKind::TooLarge,
        RefusalKind::EmptyLog,
        RefusalKind::InvalidPlace,
        RefusalKind::BufferTooSmall,
    ];
}

/// Why a call was refused: what was wrong, and where.
#[derive(Debug, Clone, Copy, PartialEq, Eq)]
pub struct Refusal {
    /// What was wrong.
    pub kind: RefusalKind,
    /// A line, an index or 0, as the kind says.
    pub value: u64,
}

impl Refusal {
    /// The number of the kind, 1 to 8.
    ///
    /// ```
    /// use placelist::{check, RefusalKind};
    ///
    /// let refusal = check(3, b"00000001000201\n000000010201\n").unwrap_err();
    /// assert_eq!(refusal.kind, RefusalKind::MisplacedEndpoint);
    /// assert_eq!((refusal.number(), refusal.value), (4, 1));
    /// ```
    pub const fn number(self) -> u8 {
        self.kind as u8
    }
}

impl fmt::Display for Refusal {
    fn fmt(&self, f: &mut fmt::Formatter<'_>) -> fmt::Result {
        let value = self.value;
        match self.kind {
            RefusalKind::InvalidSetting => write!(f, "a setting is out of its range"),
            RefusalKind::MalformedFrame => write!(f, "line {value} of the log is no frame"),
            RefusalKind::UnknownActivity => {
                write!(f, "line {value} of the log has an unknown activity")
            }
            RefusalKind::MisplacedEndpoint => {
                let fault = "does not run from 00 to 01 with neither in between";
                write!(f, "line {value} of the log {fault}")
            }
            RefusalKind::TooLarge => {
                write!(f, "line {value} of the log is too long or one too many")
            }
            RefusalKind::EmptyLog => write!(f, "the log is empty"),
            RefusalKind::InvalidPlace => write!(f, "word {value} stands for no place"),
            RefusalKind::BufferTooSmall => write!(f, "the buffer to be written is too short"),
        }
    }
}

impl Error for Refusal {}

/// The refusal of a number and a value that the archive gave, if it is one.
pub(crate) fn refused(number: u8, value: u64) -> Result<(), Refusal> {
    if number == 0 {
        return Ok(());
    }
    match RefusalKind::ALL.iter().find(|kind| **kind as u8 == number) {
        Some(&kind) => Err(Refusal { kind, value }),
        None => unreachable!("the archive gives no refusal {number}"),
    }
}
