//! Scripts of a few letters: all of a kind, or some.

use super::good;
use crate::draft::{Draft, DraftMark, DraftMatch};
use crate::random::Random;

pub fn every_pair(_: &mut Random) -> Vec<Vec<u8>> {
    let (start, matches) = (Draft::lengths(5, 5), every_match(5));
    let mut scripts = vec![start.clone().end()];
    for &first in &matches {
        let one = start.clone().matching(first);
        scripts.push(one.clone().end());
        scripts.extend(
            matches
                .iter()
                .map(|&second| one.clone().matching(second).end()),
        );
    }
    scripts
}

pub fn every_triple(_: &mut Random) -> Vec<Vec<u8>> {
    let matches = every_match(3);
    let mut scripts = Vec::new();
    for &first in &matches {
        for &second in &matches {
            let two = Draft::lengths(3, 3).matching(first).matching(second);
            scripts.extend(
                matches
                    .iter()
                    .map(|&third| two.clone().matching(third).end()),
            );
        }
    }
    scripts
}

/// Every script of one match and up to two marks in 3 letters; the marks are by turns before, around and behind.
pub fn every_match_and_marks(_: &mut Random) -> Vec<Vec<u8>> {
    let marks = every_mark(3);
    let mut scripts = Vec::new();
    for &m in &every_match(3) {
        for &first in &marks {
            let start = || Draft::lengths(3, 3);
            scripts.push(start().marking(first).matching(m).end());
            scripts.push(start().matching(m).marking(first).end());
            for (n, &second) in marks.iter().enumerate() {
                let draft = match n % 3 {
                    0 => start().marking(first).marking(second).matching(m),
                    1 => start().marking(first).matching(m).marking(second),
                    _ => start().matching(m).marking(first).marking(second),
                };
                scripts.push(draft.end());
            }
        }
    }
    scripts
}

/// Every script of two matches and a mark in 3 letters, which is by turns before, between and behind.
pub fn every_pair_and_mark(_: &mut Random) -> Vec<Vec<u8>> {
    let (matches, marks) = (every_match(3), every_mark(3));
    let mut scripts = Vec::new();
    for &first in &matches {
        for (n, &second) in matches.iter().enumerate() {
            for (k, &mark) in marks.iter().enumerate() {
                let start = Draft::lengths(3, 3);
                let draft = match (n + k) % 3 {
                    0 => start.marking(mark).matching(first).matching(second),
                    1 => start.matching(first).marking(mark).matching(second),
                    _ => start.matching(first).matching(second).marking(mark),
                };
                scripts.push(draft.end());
            }
        }
    }
    scripts
}

/// Every mark on two sequences of so many letters.
fn every_mark(letters: u32) -> Vec<DraftMark> {
    let on = |side| (0..=letters).map(move |position| DraftMark { side, position });
    on(0).chain(on(1)).collect()
}

/// Every match between two sequences of so many letters.
fn every_match(letters: u32) -> Vec<DraftMatch> {
    let mut matches = Vec::new();
    for length in 1..=letters {
        for left_a in 0..=letters - length {
            for left_b in 0..=letters - length {
                matches.extend([false, true].map(|reversed| DraftMatch {
                    left_a,
                    left_b,
                    length,
                    reversed,
                }));
            }
        }
    }
    matches
}

pub fn sampled(random: &mut Random) -> Vec<Vec<u8>> {
    (0..500).map(|_| tiny(random)).collect()
}

pub fn a_few(random: &mut Random) -> Vec<Vec<u8>> {
    (0..40).map(|_| tiny(random)).collect()
}

fn tiny(random: &mut Random) -> Vec<u8> {
    let (p, q) = (random.between(1, 5), random.between(1, 5));
    let matches = random.between(0, 5);
    let draft = (0..matches).fold(Draft::lengths(p, q), |draft, _| {
        draft.matching(good::good_match(random, p, q))
    });
    draft.end()
}
