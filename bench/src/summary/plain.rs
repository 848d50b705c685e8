//! The summary in plain Rust: the pieces are copied and sorted, and so are the stretches of each side.

use compare::door::Summary;
use compare::slow::table::NUMBERS_OF_A_ROW;

const CLASSES: usize = 30;
const LEFT_A: usize = 1;
const LEFT_B: usize = 2;
const LENGTH: usize = 3;
const DIRECTION: usize = 4;

pub fn sum_up(table: &[u32]) -> Summary {
    let mut pieces: Vec<[u32; 4]> = rows(table)
        .map(|row| [row[LEFT_A], row[LEFT_B], row[LENGTH], row[DIRECTION]])
        .collect();
    let mut summary = Summary {
        pieces: pieces.len(),
        distinct: 0,
        covers: covers(table),
        classes: [0; CLASSES],
    };
    for &[_, _, length, _] in &pieces {
        let class = length.checked_ilog2().map(|class| class as usize);
        if let Some(count) = class.and_then(|class| summary.classes.get_mut(class)) {
            *count += 1;
        }
    }
    pieces.sort_unstable();
    pieces.dedup();
    summary.distinct = pieces.len();
    summary
}

/// The letters of A and of B in at least one row's stretch.
pub fn covers(table: &[u32]) -> [u64; 2] {
    [LEFT_A, LEFT_B].map(|left| covered(table, left))
}

/// The stretches of one side, sorted by their left ends and swept.
fn covered(table: &[u32], left: usize) -> u64 {
    let mut stretches: Vec<(u32, u32)> = rows(table).map(|row| (row[left], row[LENGTH])).collect();
    stretches.sort_unstable_by_key(|&(left, _)| left);
    let (mut covered, mut reached) = (0, 0);
    for (left, length) in stretches {
        let (left, length) = (u64::from(left), u64::from(length));
        let right = left + length;
        if right > reached {
            covered += right - reached.max(left);
            reached = right;
        }
    }
    covered
}

fn rows(table: &[u32]) -> impl Iterator<Item = &[u32]> {
    table.chunks_exact(NUMBERS_OF_A_ROW)
}
