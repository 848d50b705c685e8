//! Times of the proved program beside those of plain Rust, as ratios measured in one run. Nothing
//! here tests a time.

pub mod carrying;
pub mod chain;
pub mod hunt;
pub mod reader;
pub mod records;
pub mod refiner;
pub mod summary;
pub mod timing;
