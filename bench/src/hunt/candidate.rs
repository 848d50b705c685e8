//! Scripts that are drawn and changed.

use crate::refiner::shapes::{
    cut_staircase, dense, repeats, rotation, walkers, zigzag_at, MOST, OVERLAPPING,
};
use compare::draft::DraftMatch;
use compare::groups::shapes::{script, zigzag};
use compare::random::Random;
use compare::slow::script::LONGEST_SEQUENCE;
use std::fmt;

const LONGEST: u32 = LONGEST_SEQUENCE as u32;
pub const LEAST_ROWS: usize = 8;
pub const MOST_ROWS: usize = 100_000;

/// Matches, the shape they were drawn in, and the rows for which a table is lent.
#[derive(Clone)]
pub struct Candidate {
    shape: &'static str,
    changes: usize,
    matches: Vec<DraftMatch>,
    pub capacity: usize,
    /// None if there are more than the hunt lends.
    pub rows: Option<usize>,
}

impl fmt::Display for Candidate {
    fn fmt(&self, f: &mut fmt::Formatter<'_>) -> fmt::Result {
        let rows = match self.rows {
            Some(rows) => rows.to_string(),
            None => format!("more than {MOST_ROWS}"),
        };
        let (shape, changes, matches) = (self.shape, self.changes, self.matches.len());
        let capacity = self.capacity;
        write!(
            f,
            "{shape} with {changes} changes, {matches} matches, rows {rows}, capacity {capacity}"
        )
    }
}

type Draw = fn(&mut Random) -> Vec<DraftMatch>;

const SHAPES: [(&str, Draw); 10] = [
    ("walkers", |random| {
        walkers(up_to(random, 10_000), up_to(random, MOST - 8))
    }),
    ("zigzag", |random| {
        let (length, apart) = (up_to(random, 40_000), up_to(random, 16));
        zigzag(random.any_bool(), length, apart, random.any_bool())
    }),
    ("zigzags", zigzags),
    ("rotation", |random| rotation(1 + up_to(random, 40_000))),
    ("shifts", shifts),
    ("staircase", |random| {
        let steps = up_to(random, MOST - 1);
        cut_staircase(random, steps)
    }),
    ("repeats", |random| {
        let copies = up_to(random, 45);
        repeats(random, copies)
    }),
    ("anywhere", |random| {
        let (count, letters) = (up_to(random, MOST), up_to(random, LONGEST));
        dense(random, count, letters)
    }),
    ("overlapping", |random| {
        let (_, nth) = random.one_of(&OVERLAPPING);
        (0..up_to(random, MOST)).map(nth).collect()
    }),
    ("separate", |random| {
        let (count, apart) = (up_to(random, MOST), 1 + up_to(random, 1_000));
        let one = |i| DraftMatch::direct(i * apart, i * apart, 1);
        (0..count).map(one).collect()
    }),
];

/// From 1 to `most`, each size as likely as its double.
fn up_to(random: &mut Random, most: u32) -> u32 {
    let size = 1 << random.between(0, most.ilog2());
    random.between(size, most.min(2 * size - 1))
}

/// Zigzags that share no letter.
fn zigzags(random: &mut Random) -> Vec<DraftMatch> {
    let length = up_to(random, 1_000);
    let count = up_to(random, MOST / 2);
    let reversed = random.any_bool();
    let from = |i: u32| [i * (length + 3); 2].into();
    (0..count)
        .flat_map(|i| zigzag_at(from(i), length, reversed))
        .collect()
}

/// Matches of one stretch of A with some of B, each further on by any number of letters.
fn shifts(random: &mut Random) -> Vec<DraftMatch> {
    let length = up_to(random, 40_000);
    let count = random.between(3, 8);
    let shift = |_| DraftMatch::direct(0, up_to(random, length), length);
    (0..count).map(shift).collect()
}

impl Candidate {
    pub fn drawn(random: &mut Random) -> Candidate {
        let (shape, draw) = random.one_of(&SHAPES);
        Candidate {
            shape,
            changes: 0,
            matches: draw(random),
            capacity: LEAST_ROWS.max(up_to(random, MOST_ROWS as u32) as usize),
            rows: None,
        }
    }

    pub fn script(&self) -> Vec<u8> {
        script(&self.matches)
    }

    /// The same with another capacity or order, or with some matches changed in one way.
    pub fn changed(&self, random: &mut Random) -> Candidate {
        let mut next = self.clone();
        next.changes += 1;
        match random.between(0, 9) {
            0 => {
                let rows = up_to(random, MOST_ROWS as u32) as usize;
                let tight = self.rows.unwrap_or(rows);
                next.capacity = LEAST_ROWS.max(random.one_of(&[rows, tight, self.capacity / 2]));
            }
            1 => random.shuffle(&mut next.matches),
            _ => next.change_matches(random),
        }
        next
    }

    fn change_matches(&mut self, random: &mut Random) {
        let change = random.one_of(&CHANGES);
        let letters = i64::from(up_to(random, 1_000_000));
        let letters = random.one_of(&[letters, -letters, 1, -1]);
        for _ in 0..up_to(random, self.matches.len() as u32) {
            let place = random.count_between(0, self.matches.len() - 1);
            let m = self.matches[place];
            match change {
                Change::ShiftOnA => self.matches[place] = moved(m, letters, 0),
                Change::ShiftOnB => self.matches[place] = moved(m, 0, letters),
                Change::Shift => self.matches[place] = moved(m, letters, letters),
                Change::Lengthen => self.matches[place] = lengthened(m, letters),
                Change::Reverse => self.matches[place].reversed = !m.reversed,
                Change::Copy if self.matches.len() < MOST as usize => {
                    self.matches.insert(place, moved(m, letters, letters));
                }
                Change::Remove if self.matches.len() > 1 => _ = self.matches.remove(place),
                Change::Copy | Change::Remove => (),
            }
        }
    }
}

#[derive(Clone, Copy)]
enum Change {
    ShiftOnA,
    ShiftOnB,
    Shift,
    /// By a negative number of letters too.
    Lengthen,
    Reverse,
    Copy,
    Remove,
}

const CHANGES: [Change; 7] = [
    Change::ShiftOnA,
    Change::ShiftOnB,
    Change::Shift,
    Change::Lengthen,
    Change::Reverse,
    Change::Copy,
    Change::Remove,
];

fn moved(m: DraftMatch, on_a: i64, on_b: i64) -> DraftMatch {
    let last = i64::from(LONGEST - m.length);
    let by = |left: u32, letters: i64| (i64::from(left) + letters).clamp(0, last) as u32;
    DraftMatch {
        left_a: by(m.left_a, on_a),
        left_b: by(m.left_b, on_b),
        ..m
    }
}

fn lengthened(m: DraftMatch, letters: i64) -> DraftMatch {
    let most = i64::from(LONGEST - m.left_a.max(m.left_b));
    let length = (i64::from(m.length) + letters).clamp(1, most) as u32;
    DraftMatch { length, ..m }
}
