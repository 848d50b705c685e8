//! 02, #102: the letters of a sequence that are covered. "A letter under two matches now counts
//! once."
//!
//! There are two counts, by rows and by matches, which have no step in common. Letters are numbered
//! from 0, in 64 bits, where no sum of two 32-bit numbers wraps.

use super::carrying::Side;
use super::script::{Match, Script};
use std::ops::Range;

/// The letters of a row, or of a match, on one side: from its left end, as many as its length says.
pub type Stretch = Range<u64>;

/// "Each is the number of letters in at least one row's stretch". The ends of all stretches part
/// the sequence, and no stretch begins or ends within a part: each stretch marks the parts that it
/// has, and the letters of the marked parts are counted.
pub fn letters_in_some_row(stretches: &[Stretch]) -> u64 {
    let mut ends: Vec<u64> = stretches.iter().flat_map(|s| [s.start, s.end]).collect();
    ends.sort_unstable();
    ends.dedup();
    let mut marked = vec![false; ends.len()];
    for stretch in stretches {
        let part_from = |end| ends.binary_search(&end).expect("an end of a stretch");
        marked[part_from(stretch.start)..part_from(stretch.end)].fill(true);
    }
    let parts = ends.windows(2).map(|ends| ends[1] - ends[0]);
    let letters = |(letters, marked)| if marked { letters } else { 0 };
    parts.zip(marked).map(letters).sum()
}

impl Script {
    /// "In our own tables in at least one match", for A and for B: each letter is counted with the
    /// first match that it is in.
    pub fn covers(&self) -> [u64; 2] {
        [Side::A, Side::B].map(|side| {
            let stretches: Vec<Stretch> = self.matches.iter().map(|m| m.letters(side)).collect();
            let of_match = |n: usize| letters_in_none(&stretches[n], &stretches[..n]);
            (0..stretches.len()).map(of_match).sum()
        })
    }
}

impl Match {
    /// A letter lies between its own number and the next one, as positions.
    fn letters(&self, side: Side) -> Stretch {
        let span = self.span(side);
        *span.start()..*span.end()
    }
}

/// The count of letters of a stretch that none of the others has.
fn letters_in_none(stretch: &Stretch, others: &[Stretch]) -> u64 {
    let mut left = vec![stretch.clone()];
    for other in others {
        left = left.iter().flat_map(|part| without(part, other)).collect();
    }
    left.iter().map(|part| part.end - part.start).sum()
}

/// What is left of a stretch before the other one and behind it.
fn without(stretch: &Stretch, other: &Stretch) -> impl Iterator<Item = Stretch> {
    let before = stretch.start..stretch.end.min(other.start);
    let behind = stretch.start.max(other.end)..stretch.end;
    [before, behind].into_iter().filter(|part| !part.is_empty())
}
