//! A second implementation of the written scope, and what is needed to hold the proved one to it:
//! generators of inputs, and comparisons of every call.

pub mod cases;
pub mod comparison;
pub mod generate;
pub mod model;
pub mod table;
pub mod timing;
