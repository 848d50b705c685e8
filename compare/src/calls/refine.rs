//! `notchergrey_refine` beside the slow program.

use crate::door::{self, Refining};
use crate::ends;
use crate::groups;
use crate::marks;
use crate::part::{same, same_all, Part};
use crate::random::Random;
use crate::slow::refinement;
use crate::slow::refusal::Refusal;
use crate::slow::report::ROWS;
use crate::slow::script::{self, Script};
use crate::slow::table::{self, NUMBERS_OF_A_ROW, WORK_OF_A_ROW};
use crate::tally::{Need, Outcome, Tally, REFUSALS_OF_SCRIPTS};

pub const PART: Part<u8> = Part {
    name: "notchergrey_refine",
    once: &[
        groups::EDGES,
        groups::EVERY_TINY_SCRIPT,
        groups::LARGE,
        groups::LARGE_WITH_MARKS,
    ],
    each_round: &[groups::SHAPES, groups::SHAPES_WITH_MARKS, groups::FAULTS],
    least: 80_000,
    compare: compare_around_the_rows,
    needs: &[
        &[
            Need::success(50_000, 150),
            Need::success_with(0),
            Need::success_with(ROWS),
            Need::refused(11, 10_000, 1),
            Need::refused(12, 10_000, 1),
            Need::kind(ends::INSIDE_ON_A, 10_000, 8),
            Need::kind(ends::INSIDE_ON_B, 10_000, 8),
            Need::kind(ends::AT_AN_END, 10_000, 8),
            Need::kind(ends::OF_THE_LAST, 5_000, 8),
            Need::kind(ends::APART_ON_B, 2_000, 8),
        ],
        REFUSALS_OF_SCRIPTS,
        KINDS_OF_MARKS,
    ],
};

/// Of each kind there are scripts with several counts of marks.
const KINDS_OF_MARKS: &[Need] = &[
    Need::kind(marks::MAKES_A_CUT_ON_A, 1_500, 10),
    Need::kind(marks::MAKES_A_CUT_ON_B, 1_500, 10),
    Need::kind(marks::CARRIED_ON, 1_000, 10),
    Need::kind(marks::A_CUT_ANYWAY, 1_000, 10),
    Need::kind(marks::AT_AN_END, 3_000, 10),
    Need::kind(marks::REPEATED, 2_000, 10),
    Need::kind(marks::UNSPANNED, 3_000, 10),
    Need::kind(marks::ASTRAY_ON_A, 300, 10),
    Need::kind(marks::ASTRAY_ON_B, 300, 10),
    Need::kind(marks::MANY_UNSPANNED, 200, 50),
    Need::kind(marks::DECIDES, 3_000, 10),
    Need::kind(marks::NO_MATCH, 100, 5),
    Need::kind(marks::FIRST, 3_000, 10),
    Need::kind(marks::BETWEEN, 3_000, 10),
    Need::kind(marks::BEHIND, 2_000, 10),
];

pub const PART_OF_ALL_LENGTHS: Part<u8> = Part {
    name: "notchergrey_refine, buffers of every small length",
    once: &[groups::FEW_ROWS],
    each_round: &[],
    least: 0,
    compare: compare_all_lengths,
    needs: &[&[
        Need::success(1_000, 5),
        Need::refused(11, 1_000, 1),
        Need::refused(12, 1_000, 1),
    ]],
};

/// How many numbers are lent.
#[derive(Clone, Copy)]
pub struct Lengths {
    pub table: usize,
    pub work: usize,
}

fn compare_around_the_rows(
    bytes: &[u8],
    random: &mut Random,
    tally: &mut Tally,
) -> Result<(), String> {
    for lengths in lengths_around_the_rows(bytes, random) {
        compare_one(bytes, lengths, random, tally)?;
    }
    if let Ok(script) = script::read(bytes) {
        for kind in ends::of(&script.matches) {
            tally.met_outcome(Outcome::Kind(kind), script.matches.len());
        }
        marks::count(bytes, &script, tally);
        compare_without_marks(bytes, &script, random, tally)?;
    }
    Ok(())
}

/// Where marks make rows: room for just as many rows as there are without the marks, and for some more.
fn compare_without_marks(
    bytes: &[u8],
    script: &Script,
    random: &mut Random,
    tally: &mut Tally,
) -> Result<(), String> {
    let Some([with, without]) = marks::rows(script).filter(|rows| rows[0] > rows[1]) else {
        return Ok(());
    };
    for rows in [without, random.count_between(without, with - 1)] {
        tally.met_outcome(Outcome::Kind(marks::DECIDES), script.marks.len());
        compare_one(bytes, just_enough(rows), random, tally)?;
    }
    Ok(())
}

fn compare_all_lengths(bytes: &[u8], random: &mut Random, tally: &mut Tally) -> Result<(), String> {
    for table in 0..=43 {
        for work in 0..=37 {
            compare_one(bytes, Lengths { table, work }, random, tally)?;
        }
    }
    Ok(())
}

fn lengths_around_the_rows(bytes: &[u8], random: &mut Random) -> Vec<Lengths> {
    let Ok(script) = script::read(bytes) else {
        return vec![any_lengths(random, 8), any_lengths(random, 8)];
    };
    let Some(pieces) = refinement::least(&script.matches, &script.marks, ROWS) else {
        return vec![just_enough(ROWS), any_lengths(random, 8)];
    };
    const MANY: usize = 100;
    let rows = pieces.len();
    let edges = [
        just_enough(rows),
        one_too_few(random, rows),
        work_too_short(random, rows),
    ];
    let others = [
        more_than_enough(random, rows),
        any_lengths(random, rows),
        any_lengths(random, rows),
    ];
    let few_others = if rows < MANY { &others[..] } else { &[] };
    [&edges, few_others].concat()
}

pub fn just_enough(rows: usize) -> Lengths {
    Lengths {
        table: rows * NUMBERS_OF_A_ROW,
        work: rows * WORK_OF_A_ROW,
    }
}

/// A table that lacks a number or a row, and work that suffices for it.
fn one_too_few(random: &mut Random, rows: usize) -> Lengths {
    let less = random.count_between(1, NUMBERS_OF_A_ROW);
    Lengths {
        table: (rows * NUMBERS_OF_A_ROW).saturating_sub(less),
        work: (rows.saturating_sub(1)) * WORK_OF_A_ROW + random.count_between(0, 3),
    }
}

fn work_too_short(random: &mut Random, rows: usize) -> Lengths {
    let capacity = rows + random.count_between(0, 1);
    let less = random.one_of(&[1, 1, 2, 4, 5]);
    Lengths {
        table: capacity * NUMBERS_OF_A_ROW + random.count_between(0, 4),
        work: (capacity * WORK_OF_A_ROW).saturating_sub(less),
    }
}

fn more_than_enough(random: &mut Random, rows: usize) -> Lengths {
    let capacity = rows + random.count_between(0, 3);
    Lengths {
        table: capacity * NUMBERS_OF_A_ROW + random.count_between(0, 4),
        work: capacity * WORK_OF_A_ROW + random.count_between(0, 20),
    }
}

fn any_lengths(random: &mut Random, rows: usize) -> Lengths {
    let most = just_enough(rows + 2);
    Lengths {
        table: random.count_between(0, most.table),
        work: random.count_between(0, most.work),
    }
}

fn compare_one(
    bytes: &[u8],
    lengths: Lengths,
    random: &mut Random,
    tally: &mut Tally,
) -> Result<(), String> {
    let slow = |table: &mut [u32], work: &mut [u32]| table::refine(bytes, table, work);
    compare_with(bytes, lengths, slow, random, tally)
}

/// Both programs are lent the same rubbish and must leave the same numbers. `slow` is the slow one's
/// refining call for the script.
pub fn compare_with(
    bytes: &[u8],
    lengths: Lengths,
    slow: impl FnOnce(&mut [u32], &mut [u32]) -> Result<usize, Refusal>,
    random: &mut Random,
    tally: &mut Tally,
) -> Result<(), String> {
    let mut table = random.any_numbers(lengths.table);
    let mut work = random.any_numbers(lengths.work);
    let mut lent = Refining {
        place: random.any_usize(),
        rows: random.any_usize(),
    };
    let (mut slow_table, mut slow_work) = (table.clone(), work.clone());
    let slow = slow(&mut slow_table, &mut slow_work);
    let wanted = wanted(lent, slow);
    tally.met(slow);

    let answer = door::refine(bytes, &mut table, &mut work, &mut lent);
    same("the answer", Refusal::number_in(&slow), answer)
        .and_then(|()| same("place", wanted.place, lent.place))
        .and_then(|()| same("rows", wanted.rows, lent.rows))
        .and_then(|()| same_all("table", &slow_table, &table))
        .and_then(|()| same_all("work", &slow_work, &work))
        .map_err(|what| {
            let Lengths { table, work } = lengths;
            format!("with {table} numbers of table and {work} of work, {what}")
        })
}

/// Success leaves the place as it was, and a refusal the count of rows.
fn wanted(before: Refining, slow: Result<usize, Refusal>) -> Refining {
    match slow {
        Ok(rows) => Refining { rows, ..before },
        Err(refusal) => Refining {
            place: refusal.place,
            ..before
        },
    }
}
