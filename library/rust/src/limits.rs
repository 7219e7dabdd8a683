//! The limits of the calls, by the names that they have in C.

/// The least activity bound.
pub const LEAST_ACTIVITIES: u8 = 2;
/// The largest activity bound.
pub const MOST_ACTIVITIES: u8 = 16;
/// The largest threshold, in thousandths.
pub const MOST_THRESHOLD: u16 = 1000;

/// The most frames of a log.
pub const MOST_FRAMES: usize = 4096;
/// The most activities of a frame.
pub const MOST_FRAME_ACTIVITIES: usize = 254;
/// The bytes of the longest frame: a case count, activities, a line feed.
pub const MOST_FRAME_BYTES: usize = 8 + 2 * MOST_FRAME_ACTIVITIES + 1;
/// The bytes of the longest log.
pub const MOST_LOG_BYTES: usize = MOST_FRAMES * MOST_FRAME_BYTES;

/// The words of an entry of [`summarize`](crate::summarize), one for each field of a
/// [`Variant`](crate::Variant).
pub const VARIANT_LENGTH: usize = 3;

/// The bytes of a place in a written list.
pub const LINE_BYTES: usize = 9;

/// The most bytes of input that the program `placelist` takes, and so [`report`](crate::report).
pub const MOST_INPUT: usize = 65_536;
/// The room that [`report`](crate::report) needs: a full list and a last line of 19 bytes.
pub const MOST_OUTPUT: usize = PROGRAM_FOUND * LINE_BYTES + 19;
/// The words of the program's cache of rejected places.
pub const PROGRAM_REJECTED: usize = 1024;
/// The words of the program's list of found places.
pub const PROGRAM_FOUND: usize = 4096;
/// The replay budget of the program.
pub const PROGRAM_BUDGET: u32 = 1_000_000;

/// The bytes of the stack that suffice for every call: measured, not proved.
pub const MOST_STACK: usize = 114_688;
