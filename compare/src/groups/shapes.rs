//! Matches that lie to each other in a chosen way, at the beginning of both sequences and as far
//! out as they can be.

use super::good::LONGEST;
use crate::draft::{Draft, DraftMark, DraftMatch};
use crate::random::Random;

const EACH: usize = 30;

pub fn overlaps(random: &mut Random) -> Vec<Vec<u8>> {
    scripts(random, |random| {
        let letters = random.between(2, 40);
        let count = random.between(2, 8);
        (0..count).map(|_| any_match(random, letters)).collect()
    })
}

/// Each match lies in the one before on both sides.
pub fn nested(random: &mut Random) -> Vec<Vec<u8>> {
    scripts(random, |random| {
        let mut matches = vec![any_match(random, 40)];
        for _ in 0..random.between(1, 6) {
            let outer = matches[matches.len() - 1];
            let length = random.between(1, outer.length);
            let slack = outer.length - length;
            matches.push(DraftMatch {
                left_a: outer.left_a + random.between(0, slack),
                left_b: outer.left_b + random.between(0, slack),
                length,
                reversed: random.any_bool(),
            });
        }
        matches
    })
}

/// Copies of a few matches, some of them turned around.
pub fn identical(random: &mut Random) -> Vec<Vec<u8>> {
    scripts(random, |random| {
        let count = random.between(1, 3);
        let few: Vec<DraftMatch> = (0..count).map(|_| any_match(random, 20)).collect();
        let copies = random.between(2, 7);
        let mut copy = |_| {
            let m = random.one_of(&few);
            let turned = random.between(0, 4) == 0;
            DraftMatch {
                reversed: m.reversed != turned,
                ..m
            }
        };
        (0..copies).map(&mut copy).collect()
    })
}

/// Reversed matches between the same stretches of A and B, and others around them.
pub fn palindromes(random: &mut Random) -> Vec<Vec<u8>> {
    scripts(random, |random| {
        let mut matches = Vec::new();
        for _ in 0..random.between(1, 4) {
            let m = any_match(random, 30);
            let left_b = if random.between(0, 3) == 0 {
                m.left_b
            } else {
                m.left_a
            };
            matches.push(DraftMatch {
                left_b,
                reversed: true,
                ..m
            });
        }
        for _ in 0..random.between(0, 2) {
            matches.push(any_match(random, 30));
        }
        matches
    })
}

/// Two matches a letter or a few apart, so that each cut leads to the next.
pub fn zigzags(random: &mut Random) -> Vec<Vec<u8>> {
    scripts(random, |random| {
        let length = random.between(1, 40);
        let apart = random.between(1, 3);
        let reversed = random.any_bool();
        zigzag(random.any_bool(), length, apart, reversed)
    })
}

/// The matches start together on one side, and `apart` from each other on the other side.
pub fn zigzag(together_on_a: bool, length: u32, apart: u32, reversed: bool) -> Vec<DraftMatch> {
    let at = |shift| {
        let (left_a, left_b) = if together_on_a {
            (0, shift)
        } else {
            (shift, 0)
        };
        DraftMatch {
            reversed,
            ..DraftMatch::direct(left_a, left_b, length)
        }
    };
    vec![at(0), at(apart)]
}

pub fn staircases(random: &mut Random) -> Vec<Vec<u8>> {
    scripts(random, |random| {
        let (steps, length) = (random.between(1, 12), random.between(2, 12));
        let mut matches = staircase(random, steps, length);
        let left_b = random.one_of(&[0, steps * length]);
        for _ in 0..random.between(1, 3) {
            matches.push(cutter(random, length, left_b));
        }
        matches
    })
}

/// Stretches of both sides joined in turn: a stretch of A, one of B, the next of A and so on. What
/// cuts one of them cuts them all.
pub fn staircase(random: &mut Random, matches: u32, length: u32) -> Vec<DraftMatch> {
    let step = |i: u32| DraftMatch {
        left_a: i.div_ceil(2) * length,
        left_b: i / 2 * length,
        length,
        reversed: random.any_bool(),
    };
    (0..matches).map(step).collect()
}

/// A match within the first stretch of A, at a chosen place on B.
pub fn cutter(random: &mut Random, length: u32, left_b: u32) -> DraftMatch {
    let m = any_match(random, length);
    DraftMatch { left_b, ..m }
}

/// Few matches over nearly all letters that there can be.
pub fn long_matches(random: &mut Random) -> Vec<Vec<u8>> {
    scripts(random, |random| {
        let length = LONGEST - random.between(0, 2);
        let slack = LONGEST - length;
        let long = DraftMatch {
            left_a: random.between(0, slack),
            left_b: random.between(0, slack),
            length,
            reversed: random.any_bool(),
        };
        let mut matches = vec![long];
        for _ in 0..random.between(0, 3) {
            matches.push(any_match(random, LONGEST));
        }
        matches
    })
}

fn any_match(random: &mut Random, letters: u32) -> DraftMatch {
    match_up_to(random, letters, letters)
}

/// A match anywhere between two sequences of so many letters, of a length up to `longest`.
pub fn match_up_to(random: &mut Random, letters: u32, longest: u32) -> DraftMatch {
    let length = random.between(1, longest);
    DraftMatch {
        left_a: random.between(0, letters - length),
        left_b: random.between(0, letters - length),
        length,
        reversed: random.any_bool(),
    }
}

pub fn scripts(
    random: &mut Random,
    mut matches: impl FnMut(&mut Random) -> Vec<DraftMatch>,
) -> Vec<Vec<u8>> {
    let mut scripts = Vec::new();
    for _ in 0..EACH {
        let matches = matches(random);
        scripts.push(script(&matches));
        scripts.push(far_out(&matches));
    }
    scripts
}

/// Lengths that just hold the matches, and the matches.
pub fn script(matches: &[DraftMatch]) -> Vec<u8> {
    script_with(matches, &[])
}

/// The same with marks behind.
pub fn script_with(matches: &[DraftMatch], marks: &[DraftMark]) -> Vec<u8> {
    let p = matches.iter().map(|m| m.left_a + m.length).max();
    let q = matches.iter().map(|m| m.left_b + m.length).max();
    let start = Draft::lengths(p.unwrap_or(1), q.unwrap_or(1));
    let matched = matches.iter().fold(start, |draft, &m| draft.matching(m));
    let marked = marks.iter().fold(matched, |draft, &m| draft.marking(m));
    marked.end()
}

/// The same matches at the ends of the longest sequences.
fn far_out(matches: &[DraftMatch]) -> Vec<u8> {
    let furthest = |m: &DraftMatch| m.left_a.max(m.left_b) + m.length;
    let shift = LONGEST - matches.iter().map(furthest).max().unwrap_or(1);
    let start = Draft::lengths(LONGEST, LONGEST);
    let shifted = matches.iter().map(|&m| DraftMatch {
        left_a: m.left_a + shift,
        left_b: m.left_b + shift,
        ..m
    });
    shifted.fold(start, Draft::matching).end()
}
