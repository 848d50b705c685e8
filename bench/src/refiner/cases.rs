//! The scripts whose refining is timed.

use super::shapes::{cut_staircase, dense, repeats, rotation, walkers, MOST, OVERLAPPING};
use super::sorted::refine;
use crate::timing::{Timing, Work};
use compare::draft::DraftMatch;
use compare::groups::shapes::{match_up_to, script, zigzag};
use compare::random::Random;
use compare::slow::report::ROWS;
use compare::slow::script::{LONGEST_SEQUENCE, MOST_MATCHES};
use compare::slow::table::NUMBERS_OF_A_ROW;

pub const LONGEST: u32 = LONGEST_SEQUENCE as u32;
pub const SIZES: [usize; 3] = [ROWS, 100_000, 1_000_000];

/// Matches of real sequences.
pub const REAL: [(&str, &[u8]); 3] = [
    (
        "human-orang",
        include_bytes!("../../../examples/real/human-orang.script"),
    ),
    (
        "pylori-b",
        include_bytes!("../../../examples/real/pylori-b.script"),
    ),
    (
        "pylori-e",
        include_bytes!("../../../examples/real/pylori-e.script"),
    ),
];

/// Scripts of one kind, and the rows for which a table is lent.
pub struct Case {
    pub name: String,
    pub scripts: Vec<Vec<u8>>,
    pub capacity: usize,
}

impl Case {
    /// What one call of each work takes; a measurement goes through all scripts once.
    pub fn microseconds<const N: usize>(&self, works: [Work<Vec<u8>>; N]) -> [f64; N] {
        let timing = Timing {
            calls: self.scripts.len(),
            inputs: &self.scripts,
        };
        timing.medians(works).map(|nanoseconds| nanoseconds / 1e3)
    }
}

pub fn all() -> Vec<Case> {
    let mut random = Random::from_seed(2002);
    let some = [10, 100, 1_000, MOST_MATCHES].map(|count| some_case(&mut random, count));
    let real = REAL.map(|(name, script)| Case {
        name: name.into(),
        scripts: vec![script.to_vec()],
        capacity: ROWS,
    });
    let mut cases: Vec<Case> = some.into_iter().chain(real).collect();
    cases.extend(staircase_cases(&mut random));
    let copies = repeats(&mut random, 32);
    cases.push(case("repeats, 32 by 32 copies", &copies, 3 * copies.len()));
    cases.extend(SIZES.into_iter().chain([10_000_000]).map(zigzag_case));
    cases.extend([100_000, 1_000_000, 4_000_000].map(rotation_case));
    cases.extend(
        SIZES
            .iter()
            .flat_map(|&rows| walker_cases(&mut random, rows)),
    );
    cases.extend([100_000, 1_000_000].map(|rows| dense_case(&mut random, rows)));
    cases.extend(SIZES.into_iter().flat_map(refused_cases));
    cases
}

fn case(name: impl Into<String>, matches: &[DraftMatch], capacity: usize) -> Case {
    Case {
        name: name.into(),
        scripts: vec![script(matches)],
        capacity,
    }
}

fn some_case(random: &mut Random, count: usize) -> Case {
    let scripts = (0..8).map(|_| script(&some_matches(random, count)));
    Case {
        name: format!("{count} matches"),
        scripts: scripts.collect(),
        capacity: ROWS,
    }
}

/// Matches that lie anywhere, as long as they may be for a table of 3,000 rows.
pub fn some_matches(random: &mut Random, count: usize) -> Vec<DraftMatch> {
    let lengths = (0..32).map(|halvings| LONGEST >> halvings);
    let mut drawn = lengths.map(|longest| matches_up_to(random, count, longest));
    drawn
        .find(|matches| fit_the_table(matches))
        .expect("matches of a letter fit")
}

fn matches_up_to(random: &mut Random, count: usize, longest: u32) -> Vec<DraftMatch> {
    let any_match = |_| match_up_to(random, LONGEST, longest);
    (0..count).map(any_match).collect()
}

fn fit_the_table(matches: &[DraftMatch]) -> bool {
    let mut table = vec![0; ROWS * NUMBERS_OF_A_ROW];
    refine(&script(matches), &mut table).is_ok()
}

fn staircase_cases(random: &mut Random) -> [Case; 2] {
    let mut matches = cut_staircase(random, MOST - 1);
    let rows = 3 * MOST_MATCHES - 2;
    let in_order = case("staircase of 2048 matches", &matches, rows);
    random.shuffle(&mut matches);
    [in_order, case("staircase, shuffled", &matches, rows)]
}

/// Two matches one letter apart: each cut leads to the next, letter by letter.
fn zigzag_case(rows: usize) -> Case {
    case("zigzag", &zigzag(true, rows as u32 / 2, 1, false), rows)
}

/// Each cut leads to one far away.
fn rotation_case(rows: usize) -> Case {
    case("rotation", &rotation(rows as u32 / 2), rows)
}

/// Few cuts at a time, near all ends of both sequences. Those of the 2,048 matches that do not walk
/// have one letter.
fn walker_cases(random: &mut Random, rows: usize) -> [Case; 2] {
    let singles = MOST - 8;
    let mut matches = walkers((rows as u32 - singles) / 8, singles);
    let in_order = case("walkers", &matches, rows);
    random.shuffle(&mut matches[8..]);
    [in_order, case("walkers, shuffled", &matches, rows)]
}

/// 100 matches, on average of half the letters there are.
fn dense_case(random: &mut Random, rows: usize) -> Case {
    let matches = dense(random, 100, rows as u32 / 50);
    let letters: u32 = matches.iter().map(|m| m.length).sum();
    case("dense, 100 matches", &matches, letters as usize)
}

/// Overlapping matches of which it is soon seen, and a zigzag of which it is seen last, that they
/// have too many pieces.
fn refused_cases(capacity: usize) -> Vec<Case> {
    let overlapping = OVERLAPPING.map(|(name, nth)| {
        let matches: Vec<DraftMatch> = (0..MOST).map(nth).collect();
        case(format!("{name}, over {capacity}"), &matches, capacity)
    });
    let zigzag = zigzag(true, capacity as u32 / 2 + 1, 1, false);
    let zigzag = case(format!("zigzag, over {capacity}"), &zigzag, capacity);
    overlapping.into_iter().chain([zigzag]).collect()
}
