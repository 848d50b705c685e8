//! Scripts of one or two commands whose bytes and numbers stand at every edge.

use super::good::LONGEST;
use crate::draft::{Draft, BYTES_OF_LENGTHS};
use crate::random::Random;
use crate::slow::script::{DIRECT, REVERSED};

/// p and q, in different orders of size.
pub const SOME_LENGTHS: [(u32, u32); 5] =
    [(1, 1), (10, 7), (300, 70_000), (1, LONGEST), (LONGEST, 2)];

/// 01, "Small scripts at the edges" and "One run, complete", all but those of 2,048 matches and
/// more, and sums that would come out small in 32 bits.
pub fn lines_of_01(_: &mut Random) -> Vec<Vec<u8>> {
    let of_ten = || Draft::lengths(10, 10);
    let mut tail = Draft::lengths(1, 1).end();
    tail.push(0);
    vec![
        Vec::new(),
        Draft::lengths(1, 1).end(),
        tail,
        of_ten().direct(0, 0, 10).end(),
        of_ten().direct(1, 0, 10).end(),
        of_ten().direct(0, 1, 10).end(),
        of_ten().direct(1, 0, u32::MAX).end(),
        of_ten().direct(u32::MAX, 0, u32::MAX).end(),
        of_ten().direct(u32::MAX, 0, 1).end(),
        of_ten().reversed(0, u32::MAX, 10).end(),
        of_ten().direct(0, 0, 6).reversed(2, 3, 5).end(),
        Draft::lengths(4, 4).direct(0, 0, 4).direct(0, 0, 4).end(),
        Draft::lengths(4, 4).direct(0, 0, 4).reversed(0, 0, 4).end(),
        Draft::lengths(5, 5).direct(0, 0, 4).direct(0, 1, 4).end(),
        Draft::lengths(8, 8).direct(0, 0, 4).direct(4, 4, 4).end(),
        Draft::lengths(LONGEST, 1).end(),
        Draft::lengths(LONGEST + 1, 1).without_end(),
        Draft::lengths(LONGEST + 1, 1).end(),
    ]
}

/// Each of the 256 bytes as first command, as second and as third, alone and with bytes behind it.
pub fn command_bytes(_: &mut Random) -> Vec<Vec<u8>> {
    let mut scripts = Vec::new();
    for byte in 0..=u8::MAX {
        let behind = Draft::lengths(5, 5).direct(0, 0, 5).end().split_off(1);
        scripts.push(vec![byte]);
        scripts.push([vec![byte], behind].concat());
        let starts = [Draft::lengths(5, 5), Draft::lengths(5, 5).reversed(0, 0, 5)];
        for start in starts {
            scripts.push(start.clone().command(byte, &[]).without_end());
            scripts.push(start.clone().command(byte, &[]).end());
            scripts.push(start.command(byte, &[1, 2, 3]).end());
        }
    }
    scripts
}

/// Each of the 256 bytes as a mark's side, with good and bad positions, before and behind a match.
pub fn sides(_: &mut Random) -> Vec<Vec<u8>> {
    let mut scripts = Vec::new();
    for side in 0..=u8::MAX {
        for position in [0, 5, 6, 7, 8, u32::MAX] {
            let start = || Draft::lengths(5, 7);
            scripts.push(start().mark(side, position).direct(0, 0, 5).end());
            scripts.push(start().direct(0, 0, 5).mark(side, position).end());
        }
    }
    scripts
}

pub fn marks_at_the_limits(_: &mut Random) -> Vec<Vec<u8>> {
    let mut scripts = Vec::new();
    for (p, q) in SOME_LENGTHS {
        for position in telling_operands(p, q) {
            for side in [0, 1, 2] {
                let whole = Draft::lengths(p, q).mark(side, position).end();
                for length in BYTES_OF_LENGTHS + 1..=whole.len() {
                    scripts.push(whole[..length].to_vec());
                }
            }
        }
    }
    scripts
}

pub fn lengths_at_the_limits(_: &mut Random) -> Vec<Vec<u8>> {
    let values = telling_lengths();
    let mut scripts = Vec::new();
    for &p in &values {
        for &q in &values {
            let whole = Draft::lengths(p, q).end();
            for length in 1..=whole.len() {
                scripts.push(whole[..length].to_vec());
            }
        }
    }
    scripts
}

/// Numbers around 0, around 1,000,000,000 and around other ends that a length might be given.
pub fn telling_lengths() -> Vec<u32> {
    let around_the_longest = [1, 0x100, 0x1_0000, 0x100_0000].map(|d| [LONGEST - d, LONGEST + d]);
    let small = [0, 1, 2, 0xFF, 0x100];
    let large = [LONGEST, 1 << 31, 4_000_000_000, 4_000_000_001, u32::MAX];
    [around_the_longest.as_flattened(), &small, &large].concat()
}

pub fn operands_at_the_limits(_: &mut Random) -> Vec<Vec<u8>> {
    let mut scripts = Vec::new();
    for (p, q) in SOME_LENGTHS {
        let values = telling_operands(p, q);
        for &left_a in &values {
            for &left_b in &values {
                for &length in &values {
                    let byte = if left_a % 2 == left_b % 2 {
                        DIRECT
                    } else {
                        REVERSED
                    };
                    let operands = [left_a, left_b, length];
                    scripts.push(Draft::lengths(p, q).command(byte, &operands).end());
                }
            }
        }
    }
    scripts
}

/// Numbers around 0, p, q and the ends of 31 and 32 bits, each once.
pub fn telling_operands(p: u32, q: u32) -> Vec<u32> {
    let around = |letters: u32| [letters - 1, letters, letters + 1];
    let wrapping = [p.wrapping_neg(), u32::MAX, 1 << 31];
    let mut values = [&[0, 1][..], &around(p), &around(q), &wrapping].concat();
    values.sort_unstable();
    values.dedup();
    values
}
