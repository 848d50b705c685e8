//! Scripts that must be admitted, and good beginnings that other groups spoil.

use crate::draft::{Draft, DraftMark, DraftMatch};
use crate::random::Random;
use crate::slow::script::{LONGEST_SEQUENCE, MOST_MATCHES};

pub const LONGEST: u32 = LONGEST_SEQUENCE as u32;

/// Lengths and some good matches and marks, with no end yet.
#[derive(Clone)]
pub struct Beginning {
    pub p: u32,
    pub q: u32,
    pub draft: Draft,
}

/// So many matches. Every other script has no mark; the others have some behind the matches, and most of these some
/// before and between them too.
pub fn beginning(random: &mut Random, matches: usize) -> Beginning {
    let p = sequence_length(random);
    let q = sequence_length(random);
    let mut draft = Draft::lengths(p, q);
    let mut marks = some_marks(random, p, q);
    let most_between = random.one_of(&[0, 1, 2]);
    for _ in 0..matches {
        for mark in marks.by_ref().take(random.count_between(0, most_between)) {
            draft = draft.marking(mark);
        }
        draft = draft.matching(good_match(random, p, q));
    }
    draft = marks.fold(draft, Draft::marking);
    Beginning { p, q, draft }
}

pub fn script(random: &mut Random, matches: usize) -> Vec<u8> {
    beginning(random, matches).draft.end()
}

pub fn good_match(random: &mut Random, p: u32, q: u32) -> DraftMatch {
    let longest = p.min(q);
    let length = match random.between(0, 3) {
        0 => 1,
        1 => longest,
        2 => random.between(1, longest.min(10)),
        _ => random.between(1, longest),
    };
    DraftMatch {
        left_a: good_left(random, p, length),
        left_b: good_left(random, q, length),
        length,
        reversed: random.any_bool(),
    }
}

fn some_marks(random: &mut Random, p: u32, q: u32) -> impl Iterator<Item = DraftMark> {
    let few = random.count_between(1, 10);
    let many = random.count_between(1, 100);
    let count = random.one_of(&[0, 0, few, many]);
    let marks: Vec<DraftMark> = (0..count).map(|_| good_mark(random, p, q)).collect();
    marks.into_iter()
}

/// On either side, often at its beginning or at its end.
pub fn good_mark(random: &mut Random, p: u32, q: u32) -> DraftMark {
    let (side, letters) = random.one_of(&[(0, p), (1, q)]);
    let any = random.between(0, letters);
    DraftMark {
        side,
        position: random.one_of(&[0, letters, any, any]),
    }
}

/// A left end from which `length` letters stay within `letters`, often the first or the last one.
pub fn good_left(random: &mut Random, letters: u32, length: u32) -> u32 {
    let last = letters - length;
    let inner = random.between(0, last);
    random.one_of(&[0, last, inner, inner])
}

pub fn sequence_length(random: &mut Random) -> u32 {
    match random.between(0, 5) {
        0 => 1,
        1 => LONGEST,
        2 => LONGEST - random.between(0, 3),
        3 => random.between(1, 10),
        4 => random.between(1, 1_000),
        _ => random.between(1, LONGEST),
    }
}

pub fn few_matches(random: &mut Random) -> Vec<Vec<u8>> {
    let mut scripts = Vec::new();
    for _ in 0..300 {
        let matches = random.count_between(0, 20);
        scripts.push(script(random, matches));
    }
    scripts
}

pub fn many_matches(random: &mut Random) -> Vec<Vec<u8>> {
    let mut scripts = Vec::new();
    for _ in 0..15 {
        let matches = random.count_between(21, MOST_MATCHES);
        scripts.push(script(random, matches));
    }
    scripts
}
