//! 01, "Positions and carrying": a position of one side carried over one match to the other; and 02, #107, "A list of
//! positions carried together".

use super::refusal::{Refusal, Word};
use super::script::{self, Match};
use std::ops::RangeInclusive;

/// "The side is a choice of two, and no third can be given."
#[derive(Clone, Copy, Debug, PartialEq, Eq)]
pub enum Side {
    A,
    B,
}

impl Match {
    /// "spans i to i + d on A and k to k + d on B, both ends included"
    pub fn span(&self, side: Side) -> RangeInclusive<u64> {
        let left = self.left(side);
        left..=left + self.length
    }

    /// Where a position that the match spans on the side `from` stands on the other side. "Direct:
    /// position h on A carries to k + (h − i). Reversed: h carries to k + d − (h − i)." Read
    /// backwards, either says the same with the sides exchanged.
    pub fn carry(&self, from: Side, position: u64) -> u64 {
        let to = match from {
            Side::A => Side::B,
            Side::B => Side::A,
        };
        let inside = position - self.left(from);
        if self.reversed {
            self.left(to) + self.length - inside
        } else {
            self.left(to) + inside
        }
    }

    fn left(&self, side: Side) -> u64 {
        match side {
            Side::A => self.left_a,
            Side::B => self.left_b,
        }
    }
}

/// The carrying call. "Carrying: the script, 13, 14."
pub fn carry(bytes: &[u8], number: u32, side: Side, position: u32) -> Result<u32, Refusal> {
    let m = script::read(bytes)?.one_match(number)?;
    carry_over(&m, side, position)
}

/// The call for a list. "Errors: 22 if the two lengths differ, between 13 and 14."
pub fn carry_all(
    bytes: &[u8],
    number: u32,
    side: Side,
    positions: &[u32],
    carried: &mut [u32],
) -> Result<(), Refusal> {
    let m = script::read(bytes)?.one_match(number)?;
    if positions.len() != carried.len() {
        return Err(Refusal::of_the_call(Word::CountsDiffer));
    }
    // "One position off the match refuses the lot with 14 and writes none of it."
    let mut all = Vec::new();
    for &position in positions {
        // "each as the single call would"
        all.push(carry_over(&m, side, position)?);
    }
    carried.copy_from_slice(&all);
    Ok(())
}

/// What the call says of a position once its match is found.
fn carry_over(m: &Match, side: Side, position: u32) -> Result<u32, Refusal> {
    let position = u64::from(position);
    if !m.span(side).contains(&position) {
        return Err(Refusal::of_the_call(Word::OffTheMatch));
    }
    Ok(m.carry(side, position) as u32)
}
