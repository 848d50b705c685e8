//! Each door beside the slow program, a module a door.

pub mod carry;
pub mod carry_all;
pub mod chain;
pub mod one_match;
pub mod read;
pub mod read_records;
pub mod refine;
pub mod refine_long;
pub mod report;
pub mod rows_of;
pub mod summary;
pub mod write;
