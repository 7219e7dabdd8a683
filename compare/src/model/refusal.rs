//! The numbered refusals of the written scope.

/// Why a call was refused.
#[derive(Clone, Copy, Debug, PartialEq, Eq)]
pub enum Refusal {
    InvalidSetting,
    MalformedFrame { line: u64 },
    UnknownActivity { line: u64 },
    MisplacedEndpoint { line: u64 },
    TooLarge { line: u64 },
    EmptyLog,
    InvalidPlace { index: u64 },
    BufferTooSmall,
}

impl Refusal {
    /// The number in the scope's table.
    pub fn number(self) -> u8 {
        match self {
            Refusal::InvalidSetting => 1,
            Refusal::MalformedFrame { .. } => 2,
            Refusal::UnknownActivity { .. } => 3,
            Refusal::MisplacedEndpoint { .. } => 4,
            Refusal::TooLarge { .. } => 5,
            Refusal::EmptyLog => 6,
            Refusal::InvalidPlace { .. } => 7,
            Refusal::BufferTooSmall => 8,
        }
    }

    /// What is returned beside the number: a line, an index or 0.
    pub fn value(self) -> u64 {
        match self {
            Refusal::MalformedFrame { line }
            | Refusal::UnknownActivity { line }
            | Refusal::MisplacedEndpoint { line }
            | Refusal::TooLarge { line } => line,
            Refusal::InvalidPlace { index } => index,
            Refusal::InvalidSetting | Refusal::EmptyLog | Refusal::BufferTooSmall => 0,
        }
    }
}
