//! Good plain Rust for a list of positions: the script is read once, one pass over the list judges
//! it, and one fills the buffer that is lent. One program judges each position by itself, the other
//! one judges blocks.

use crate::reader::plain::find;
use compare::slow::carrying::Side;
use compare::slow::refusal::{Refusal, Word};

/// In a block there is no branch for each position, so that the compiler takes several at once.
const BLOCK: usize = 256;

/// Carries all positions of this side over the match of this number, or none of them.
#[inline(never)]
pub fn carry_all(
    script: &[u8],
    number: u32,
    side: Side,
    positions: &[u32],
    carried: &mut [u32],
) -> Result<(), Refusal> {
    let way = Way::find(script, number, side)?;
    if positions.len() != carried.len() {
        return Err(Refusal::of_the_call(Word::CountsDiffer));
    }
    if !positions.iter().all(|&position| way.spans(position)) {
        return Err(Refusal::of_the_call(Word::OffTheMatch));
    }
    way.carry(positions, carried);
    Ok(())
}

/// The same, judged in blocks.
#[inline(never)]
pub fn carry_all_in_blocks(
    script: &[u8],
    number: u32,
    side: Side,
    positions: &[u32],
    carried: &mut [u32],
) -> Result<(), Refusal> {
    let way = Way::find(script, number, side)?;
    if positions.len() != carried.len() {
        return Err(Refusal::of_the_call(Word::CountsDiffer));
    }
    if !positions.chunks(BLOCK).all(|block| way.spans_all(block)) {
        return Err(Refusal::of_the_call(Word::OffTheMatch));
    }
    way.carry(positions, carried);
    Ok(())
}

/// A match, seen from one side.
struct Way {
    from: u32,
    to: u32,
    length: u32,
    reversed: bool,
}

impl Way {
    fn find(script: &[u8], number: u32, side: Side) -> Result<Way, Refusal> {
        let found = find(script, number)?;
        let (from, to) = match side {
            Side::A => (found.left_a, found.left_b),
            Side::B => (found.left_b, found.left_a),
        };
        Ok(Way {
            from,
            to,
            length: found.length,
            reversed: found.reversed,
        })
    }

    /// Left of the match the difference wraps around, to more than any length.
    fn spans(&self, position: u32) -> bool {
        position.wrapping_sub(self.from) <= self.length
    }

    fn spans_all(&self, block: &[u32]) -> bool {
        let spans_too = |all, &position: &u32| all & self.spans(position);
        block.iter().fold(true, spans_too)
    }

    /// Positions that are spanned, into a buffer as long.
    fn carry(&self, positions: &[u32], carried: &mut [u32]) {
        let along = positions.iter().map(|position| position - self.from);
        let pairs = carried.iter_mut().zip(along);
        if self.reversed {
            pairs.for_each(|(carried, along)| *carried = self.to + self.length - along);
        } else {
            pairs.for_each(|(carried, along)| *carried = self.to + along);
        }
    }
}
