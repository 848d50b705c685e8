//! A slow, plain program written from the papers 01 and 02, and what sets the proved program beside
//! it.

pub mod calls;
pub mod door;
pub mod draft;
pub mod ends;
pub mod groups;
pub mod kinds;
pub mod list;
pub mod marks;
pub mod part;
pub mod positions;
pub mod random;
pub mod slow;
pub mod tally;
pub mod turns;
