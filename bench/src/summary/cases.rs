//! The tables that are summed up.

use crate::refiner::shapes::{overlapping, zigzag_at, MOST};
use compare::door::{self, Refining};
use compare::draft::DraftMatch;
use compare::groups::patterned;
use compare::groups::shapes::{script, zigzag};
use compare::random::Random;
use compare::slow::table::{NUMBERS_OF_A_ROW, WORK_OF_A_ROW};

/// Tables of one length; the first is the ordinary one.
pub struct Length {
    pub rows: usize,
    pub tables: Vec<(&'static str, Vec<u32>)>,
}

pub fn all() -> Vec<Length> {
    let mut random = Random::from_seed(2002);
    [3_000, 100_000, 1_000_000]
        .map(|rows| length(rows, &mut random))
        .into()
}

fn length(rows: usize, random: &mut Random) -> Length {
    let count = rows as u32;
    let own = refined(&zigzag(true, count / 2, 1, false), rows);
    let gaps: Vec<u32> = (0..count).flat_map(|k| [1, 3 * k, 5 * k, 2, 0]).collect();
    let mut tables = vec![
        ("zigzag", own.clone()),
        (
            "zigzag, reversed",
            refined(&zigzag(true, count / 2, 1, true), rows),
        ),
        ("shuffled", shuffled(&own, random)),
        ("random", random_rows(rows, random)),
        ("each piece twice", twice(&own)),
        ("all equal", [1, 7, 8, 9, 0].repeat(rows)),
        ("gaps", gaps.clone()),
        ("gaps, shuffled", shuffled(&gaps, random)),
        (
            "overlapping matches",
            refined(&in_any_order(overlapping(count), random), rows),
        ),
        (
            "separate zigzags",
            refined(&separate_zigzags(count, random), rows),
        ),
    ];
    tables.extend(patterned::all(count).map(|(name, table)| (name, shuffled(&table, random))));
    match rows {
        3_000 => tables.push(("separate matches", refined(&separate(random), rows))),
        100_000 => tables.push(("300 matches", refined(&patterned::matches(300), rows))),
        _ => (),
    }
    Length { rows, tables }
}

/// 1,024 zigzags of two matches that share no letter with each other, in any order.
fn separate_zigzags(rows: u32, random: &mut Random) -> Vec<DraftMatch> {
    let letters = rows / MOST;
    let from = |k: u32| [k * (letters + 2); 2].into();
    let matches = (0..MOST / 2).flat_map(|k| zigzag_at(from(k), letters, false));
    in_any_order(matches.collect(), random)
}

/// 2,048 matches no two of which touch, in any order: each is one piece.
fn separate(random: &mut Random) -> Vec<DraftMatch> {
    let matches = (0..MOST).map(|k| DraftMatch::direct(3 * k, 5 * k, 2));
    in_any_order(matches.collect(), random)
}

fn refined(matches: &[DraftMatch], rows: usize) -> Vec<u32> {
    let mut table = vec![0; rows * NUMBERS_OF_A_ROW];
    let mut work = vec![0; rows * WORK_OF_A_ROW];
    let mut lent = Refining { place: 0, rows: 0 };
    let answer = door::refine(&script(matches), &mut table, &mut work, &mut lent);
    assert_eq!(answer, 0, "the rows fit the table");
    table.truncate(lent.rows * NUMBERS_OF_A_ROW);
    table
}

fn shuffled(table: &[u32], random: &mut Random) -> Vec<u32> {
    let rows: Vec<&[u32]> = table.chunks_exact(NUMBERS_OF_A_ROW).collect();
    in_any_order(rows, random).concat()
}

fn in_any_order<T>(mut things: Vec<T>, random: &mut Random) -> Vec<T> {
    for i in (1..things.len()).rev() {
        things.swap(i, random.count_between(0, i));
    }
    things
}

fn random_rows(rows: usize, random: &mut Random) -> Vec<u32> {
    let row = |_| {
        [
            1,
            random.any_u32(),
            random.any_u32(),
            random.between(1, 1_000),
            0,
        ]
    };
    (0..rows).flat_map(row).collect()
}

/// The first half of a table, and the same once more.
fn twice(table: &[u32]) -> Vec<u32> {
    let half = table.len() / NUMBERS_OF_A_ROW / 2 * NUMBERS_OF_A_ROW;
    table[..half].repeat(2)
}
