//! A good plain Rust refiner: matches sorted by their left ends, a set of cuts for each side, and a
//! list of the cuts that are still to be carried. Marks that a match spans are among the first.

use crate::reader::plain::{read_with, Found, Mark};
use compare::draft::BYTES_OF_A_MATCH;
use compare::slow::refusal::{Refusal, Word};
use compare::slow::script::MOST_MATCHES;
use compare::slow::table::NUMBERS_OF_A_ROW;
use std::collections::{BTreeSet, HashSet};
use std::hash::{BuildHasherDefault, Hasher};

/// The cuts of one side.
pub trait Cuts: Default {
    /// Says whether the cut is new.
    fn add(&mut self, cut: u32) -> bool;
    fn rising(self) -> Vec<u32>;
}

pub type Ordered = BTreeSet<u32>;
pub type Hashed = HashSet<u32, BuildHasherDefault<Mixer>>;

impl Cuts for Ordered {
    fn add(&mut self, cut: u32) -> bool {
        self.insert(cut)
    }

    fn rising(self) -> Vec<u32> {
        self.into_iter().collect()
    }
}

impl Cuts for Hashed {
    fn add(&mut self, cut: u32) -> bool {
        self.insert(cut)
    }

    fn rising(self) -> Vec<u32> {
        let mut cuts: Vec<u32> = self.into_iter().collect();
        cuts.sort_unstable();
        cuts
    }
}

/// A hash of one number by a multiplication, much faster than the standard one.
#[derive(Default)]
pub struct Mixer {
    mixed: u64,
}

impl Hasher for Mixer {
    fn write(&mut self, bytes: &[u8]) {
        for &byte in bytes {
            self.write_u32(byte.into());
        }
    }

    fn write_u32(&mut self, number: u32) {
        let mixed = (self.mixed ^ u64::from(number)).wrapping_mul(0x9E37_79B9_7F4A_7C15);
        self.mixed = mixed ^ (mixed >> 32);
    }

    fn finish(&self) -> u64 {
        self.mixed
    }
}

pub const A: usize = 0;
pub const B: usize = 1;

#[derive(Clone, Copy)]
pub struct Match {
    pub left: [u32; 2],
    pub length: u32,
    pub reversed: bool,
}

impl Match {
    pub fn right(&self, side: usize) -> u32 {
        self.left[side] + self.length
    }

    fn carry(&self, from: usize, cut: u32) -> u32 {
        let inside = cut - self.left[from];
        let to = self.left[1 - from];
        if self.reversed {
            to + self.length - inside
        } else {
            to + inside
        }
    }
}

/// The rows of the least resolved refinement go to the table's start. The sets are made in the
/// call: plain Rust has no use for a work buffer.
#[inline(never)]
pub fn refine<C: Cuts>(script: &[u8], table: &mut [u32]) -> Result<usize, Refusal> {
    refine_with(script, table, |matches, marks, most_hits| {
        Some(closed_cuts::<C>(matches, marks, most_hits)?.rising())
    })
}

/// Refines with what finds the cuts on A, rising. It is given the matches, the marks and the most hits
/// that a side may have, and gives none if there are more. A hit is a cut in a match, its ends among them:
/// each match has one more of them than it has pieces.
#[inline(always)]
pub fn refine_with(
    script: &[u8],
    table: &mut [u32],
    cuts_on_a: impl FnOnce(&[Match], &[Mark], usize) -> Option<Vec<u32>>,
) -> Result<usize, Refusal> {
    let capacity = table.len() / NUMBERS_OF_A_ROW;
    let (matches, marks) = read_commands(script)?;
    let cuts = cuts_on_a(&matches, &marks, capacity + matches.len())
        .ok_or(Refusal::of_the_call(Word::TooManyPieces))?;
    Ok(write_rows(&matches, &cuts, table))
}

fn read_commands(script: &[u8]) -> Result<(Vec<Match>, Vec<Mark>), Refusal> {
    let count = script.len() / BYTES_OF_A_MATCH;
    let mut matches = Vec::with_capacity(count.min(MOST_MATCHES));
    let mut marks = Vec::new();
    read_with(script, |found| match found {
        Found::Match(_, m) => matches.push(Match {
            left: [m.left_a, m.left_b],
            length: m.length,
            reversed: m.reversed,
        }),
        Found::Mark(_, mark) => marks.push(mark),
    })?;
    Ok((matches, marks))
}

/// The cuts on A, or none as soon as it is sure that there are too many hits.
fn closed_cuts<C: Cuts>(matches: &[Match], marks: &[Mark], most_hits: usize) -> Option<C> {
    let by_left = [ByLeft::new(matches, A), ByLeft::new(matches, B)];
    let mut cuts = [C::default(), C::default()];
    let mut to_carry = Vec::new();
    for m in matches {
        for side in [A, B] {
            for end in [m.left[side], m.right(side)] {
                if cuts[side].add(end) {
                    to_carry.push((side, end));
                }
            }
        }
    }
    for &Mark { side, position } in marks {
        let side = usize::from(side);
        let is_spanned = by_left[side].spanning(position).next().is_some();
        if is_spanned && cuts[side].add(position) {
            to_carry.push((side, position));
        }
    }
    let mut hits = [0; 2];
    while let Some((from, cut)) = to_carry.pop() {
        let to = 1 - from;
        for m in by_left[from].spanning(cut) {
            hits[from] += 1;
            if hits[from] > most_hits {
                return None;
            }
            let carried = m.carry(from, cut);
            if cuts[to].add(carried) {
                to_carry.push((to, carried));
            }
        }
    }
    let [cuts_on_a, _] = cuts;
    Some(cuts_on_a)
}

/// Matches sorted by the left end on a side. `furthest[i]` is the furthest right end up to match i.
struct ByLeft {
    side: usize,
    matches: Vec<Match>,
    furthest: Vec<u32>,
}

impl ByLeft {
    fn new(matches: &[Match], side: usize) -> ByLeft {
        let mut matches = matches.to_vec();
        matches.sort_unstable_by_key(|m| m.left[side]);
        let furthest = matches.iter().scan(0, |furthest, m| {
            *furthest = m.right(side).max(*furthest);
            Some(*furthest)
        });
        ByLeft {
            side,
            furthest: furthest.collect(),
            matches,
        }
    }

    fn spanning(&self, cut: u32) -> impl Iterator<Item = &Match> {
        let side = self.side;
        let begun = self.matches.partition_point(|m| m.left[side] <= cut);
        let begun = self.matches[..begun].iter().zip(&self.furthest[..begun]);
        let near = begun
            .rev()
            .take_while(move |&(_, &furthest)| furthest >= cut);
        near.map(|(m, _)| m).filter(move |m| m.right(side) >= cut)
    }
}

fn write_rows(matches: &[Match], cuts: &[u32], table: &mut [u32]) -> usize {
    let mut rows = 0;
    let mut free = table.chunks_exact_mut(NUMBERS_OF_A_ROW);
    for (number, m) in (1..).zip(matches) {
        let first = cuts.partition_point(|&cut| cut < m.left[A]);
        let pairs = cuts[first..].windows(2).map(|pair| [pair[0], pair[1]]);
        for [left, right] in pairs.take_while(|&[_, right]| right <= m.right(A)) {
            let left_b = m.carry(A, if m.reversed { right } else { left });
            let row = free.next().expect("rows that were counted");
            row.copy_from_slice(&[number, left, left_b, right - left, m.reversed.into()]);
            rows += 1;
        }
    }
    rows
}
