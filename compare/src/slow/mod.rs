//! The slow program: the paper 01 and the requests of 02 that have landed, taken sentence by
//! sentence, in the plainest Rust. It shares no code and no layout with the proved program, so that
//! a misreading of a paper would have to be made twice to pass unseen.

pub mod carrying;
pub mod chaining;
pub mod covers;
pub mod records;
pub mod refinement;
pub mod refusal;
pub mod report;
pub mod script;
pub mod table;
