//! Comparisons of the proved library and program with the second implementation.

mod answers;
mod buffers;
mod calls;
pub mod lists;
pub mod logs;
mod outcomes;
pub mod places;
mod process;
pub mod programs;
pub mod searches;
pub mod summaries;
mod tally;

pub use calls::{Comparison, Sizes};
pub use outcomes::required;
pub use tally::Tally;
