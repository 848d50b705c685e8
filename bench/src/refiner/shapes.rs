//! Matches that lie to each other so that their cuts are many, or hard to find.

use compare::draft::DraftMatch;
use compare::groups::shapes::{match_up_to, staircase, zigzag};
use compare::random::Random;
use compare::slow::script::MOST_MATCHES;

pub const MOST: u32 = MOST_MATCHES as u32;

/// Eight matches of so many letters that walk letter by letter, in pairs: from each end of A to
/// each end of B. Between them `singles` matches of one letter each, no two of which touch.
pub fn walkers(letters: u32, singles: u32) -> Vec<DraftMatch> {
    let width = letters + 3;
    let middle = 2 * width;
    let behind = middle + 3 * singles;
    let corners = [
        (0, 0),
        (width, behind),
        (behind, width),
        (behind + width, behind + width),
    ];
    let walking = corners.map(|corner| zigzag_at(corner, letters, false));
    let single = |i: u32| DraftMatch::direct(middle + 3 * i, middle + 3 * i, 1);
    walking
        .into_iter()
        .flatten()
        .chain((0..singles).map(single))
        .collect()
}

/// Two matches a letter apart, from these places on.
pub fn zigzag_at(
    (left_a, left_b): (u32, u32),
    letters: u32,
    reversed: bool,
) -> impl Iterator<Item = DraftMatch> {
    let moved = move |m: DraftMatch| DraftMatch {
        left_a: left_a + m.left_a,
        left_b: left_b + m.left_b,
        ..m
    };
    zigzag(true, letters, 1, reversed).into_iter().map(moved)
}

/// A letter goes to itself by one match, and round about by the two others. All steps around are
/// equal and next to the golden section of the circle, so that each cut falls far from the ones
/// before; and they go to every letter.
pub fn rotation(letters: u32) -> Vec<DraftMatch> {
    let golden = (f64::from(letters) * 0.618_033_988_75) as u32;
    let step = (golden..letters).find(|&step| have_no_factor(step, letters));
    let step = step.unwrap_or(1);
    vec![
        DraftMatch::direct(0, 0, letters),
        DraftMatch::direct(0, step, letters - step),
        DraftMatch::direct(letters - step, 0, step),
    ]
}

/// Whether the two have no factor in common.
fn have_no_factor(mut one: u32, mut other: u32) -> bool {
    while other != 0 {
        (one, other) = (other, one % other);
    }
    one == 1
}

/// Matches anywhere in so few letters that nearly each of these becomes a cut.
pub fn dense(random: &mut Random, count: u32, letters: u32) -> Vec<DraftMatch> {
    let any_match = |_| match_up_to(random, letters, letters);
    (0..count).map(any_match).collect()
}

/// Matches that join stretches of A and B in turn, and one that cuts the first stretch: its two
/// cuts go through all of them.
pub fn cut_staircase(random: &mut Random, steps: u32) -> Vec<DraftMatch> {
    let mut matches = staircase(random, steps, 1_000);
    matches.push(DraftMatch::direct(100, steps * 1_000, 300));
    matches
}

/// Every copy of a repeat on A with every copy on B, and one match that cuts a copy.
pub fn repeats(random: &mut Random, copies: u32) -> Vec<DraftMatch> {
    let mut matches = Vec::new();
    for copy_on_a in 0..copies {
        for copy_on_b in 0..copies {
            matches.push(DraftMatch {
                reversed: random.between(0, 9) == 0,
                ..DraftMatch::direct(copy_on_a * 5_000, copy_on_b * 7_000, 2_000)
            });
        }
    }
    matches.push(DraftMatch::direct(1_000, copies * 7_000, 3_000));
    matches
}

/// Matches that begin one letter apart on A and two apart on B. Each is cut into single letters: 48 of them, or more if
/// 2,048 such matches do not fill the table.
pub fn overlapping(rows: u32) -> Vec<DraftMatch> {
    let letters = (rows / MOST).max(48);
    let count = (rows / letters).min(MOST);
    let nth = |k| DraftMatch::direct(k, 2 * k, letters);
    (0..count).map(nth).collect()
}

/// The match of an index below 2,048.
type Nth = fn(u32) -> DraftMatch;

/// Matches that all overlap, with few cuts and, of 2,048 matches, millions of pieces.
pub const OVERLAPPING: [(&str, Nth); 3] = [
    ("nested", |i| DraftMatch::direct(0, 0, 10 * (i + 1))),
    ("centred", |i| {
        DraftMatch::direct(10 * (MOST - i), 10 * (MOST - i), 20 * i + 1)
    }),
    ("sliding", |i| DraftMatch::direct(i, 2 * i, 100_000)),
];
