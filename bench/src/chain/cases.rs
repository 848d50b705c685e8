//! The scripts whose backbone is timed.

use crate::refiner::cases::{LONGEST, REAL, SIZES};
use crate::refiner::shapes::{dense, overlapping, zigzag_at, MOST};
use compare::draft::DraftMatch;
use compare::groups::shapes::{match_up_to, script, zigzag};
use compare::random::Random;
use compare::slow::report::ROWS;

/// Refused by the program, which has room for 3,000 rows.
const LONGER: &[u8] = include_bytes!("../../../examples/real/human-orang-refused.script");

/// A script, and room for its rows.
pub struct Case {
    pub name: &'static str,
    pub script: Vec<u8>,
    pub capacity: usize,
}

pub fn all() -> Vec<Case> {
    let mut random = Random::from_seed(2002);
    let short = (0..MOST).map(|_| match_up_to(&mut random, LONGEST, 400));
    let mut cases = vec![case("short matches", all_direct(short.collect()))];
    cases.extend(REAL.map(|(name, script)| real_case(name, script, ROWS)));
    cases.push(real_case("human-orang-refused", LONGER, 11_000));
    for rows in SIZES {
        cases.extend(cases_of(rows as u32, &mut random));
    }
    cases.push(case("zigzag", zigzag(true, 1_000_000, 1, false)));
    cases
}

fn real_case(name: &'static str, script: &[u8], capacity: usize) -> Case {
    Case {
        name,
        script: script.to_vec(),
        capacity,
    }
}

/// There are no more rows than letters.
fn case(name: &'static str, matches: Vec<DraftMatch>) -> Case {
    Case {
        name,
        script: script(&matches),
        capacity: matches.iter().map(|m| m.length as usize).sum(),
    }
}

/// About so many rows, nearly all of one letter.
fn cases_of(rows: u32, random: &mut Random) -> Vec<Case> {
    let letters = (rows / MOST).max(10);
    let count = (rows / letters).min(MOST);
    let anywhere = dense(random, 100, rows / 50);
    let zigzags = zigzags_anywhere(random, count / 2, letters);
    let mut shuffled = overlapping(rows);
    random.shuffle(&mut shuffled);
    let mut in_turn = overlapping(rows);
    in_turn.sort_by_key(|m| m.left_a.reverse_bits());
    let joined = |joins: fn(u32) -> Vec<(u32, u32)>| joined_stretches(letters, &joins(count - 1));
    vec![
        case("matches anywhere", all_direct(anywhere)),
        case("zigzag", zigzag(true, rows / 2, 1, false)),
        case("zigzag, reversed", zigzag(true, rows / 2, 1, true)),
        case("zigzags anywhere", zigzags),
        case("staircase", joined(staircase)),
        case("repeats", joined(repeats)),
        case(
            "one stretch of A",
            joined(|count| (0..count).map(|k| (0, k)).collect()),
        ),
        case(
            "one stretch of B",
            joined(|count| (0..count).map(|k| (k, 0)).collect()),
        ),
        case(
            "one match many times",
            joined(|count| vec![(0, 0); count as usize]),
        ),
        case("overlapping, shuffled", shuffled),
        case("overlapping, in turn", in_turn),
    ]
}

fn all_direct(matches: Vec<DraftMatch>) -> Vec<DraftMatch> {
    let direct = |m: DraftMatch| DraftMatch::direct(m.left_a, m.left_b, m.length);
    matches.into_iter().map(direct).collect()
}

/// Zigzags one behind the other on A, in any order on B, and listed in any order.
fn zigzags_anywhere(random: &mut Random, count: u32, letters: u32) -> Vec<DraftMatch> {
    let width = letters + 2;
    let mut on_b: Vec<u32> = (0..count).collect();
    random.shuffle(&mut on_b);
    let corners = (0..).zip(on_b).map(|(a, b)| (a * width, b * width));
    let mut matches: Vec<DraftMatch> = corners
        .flat_map(|corner| zigzag_at(corner, letters, false))
        .collect();
    random.shuffle(&mut matches);
    matches
}

/// Matches of stretches, each of so many letters. One more cuts the first two stretches, which are joined, letter by
/// letter, and with them all that are joined to them.
fn joined_stretches(letters: u32, joins: &[(u32, u32)]) -> Vec<DraftMatch> {
    let joined = |&(a, b): &(u32, u32)| DraftMatch::direct(a * letters, b * letters, letters);
    let cutting = DraftMatch::direct(1, 0, letters - 1);
    joins.iter().map(joined).chain([cutting]).collect()
}

/// A stretch of A, one of B, the next of A and so on.
fn staircase(count: u32) -> Vec<(u32, u32)> {
    (0..count).map(|k| (k.div_ceil(2), k / 2)).collect()
}

/// As many stretches of A as of B, each with each.
fn repeats(count: u32) -> Vec<(u32, u32)> {
    let copies = count.isqrt();
    let on_b = |a| (0..copies).map(move |b| (a, b));
    (0..copies).flat_map(on_b).collect()
}
