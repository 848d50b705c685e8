//! `notchergrey_summary` beside the slow program, on any tables and on those that
//! `notchergrey_refine` made.

use crate::door::{self, Refining};
use crate::groups;
use crate::kinds;
use crate::marks;
use crate::part::{same, same_all, Part};
use crate::random::Random;
use crate::slow::report::ROWS;
use crate::slow::script;
use crate::slow::table::{summary, NUMBERS_OF_A_ROW, WORK_OF_A_ROW};
use crate::tally::{Need, Outcome, Tally};

pub const PART: Part<u32> = Part {
    name: "notchergrey_summary",
    once: &[groups::LONG_TABLES, groups::MANY_STRETCHES],
    each_round: &[groups::TABLES, groups::STRETCHES],
    least: 30_000,
    compare,
    needs: &[
        &[Need::success(30_000, 50)],
        KINDS_OF_TABLES,
        KINDS_OF_LONG_TABLES,
    ],
};

pub const PART_OF_OWN_TABLES: Part<u8> = Part {
    name: "notchergrey_summary, tables that notchergrey_refine made",
    once: &[groups::LARGE, groups::OWN_TABLES],
    each_round: &[groups::SHAPES, groups::SHAPES_WITH_MARKS],
    least: 5_000,
    compare: compare_own,
    needs: &[&[
        Need::success(5_000, 100),
        Need::kind(kinds::UNDER_TWO_ROWS, 1_000, 20),
        Need::kind(kinds::ON_ONE_SIDE_ALONE, 100, 3),
        Need::kind(kinds::TOUCHING, 1_000, 20),
        Need::kind(kinds::EQUAL, 500, 10),
        Need::kind(kinds::DIRECTION_TELLS, 100, 5),
        Need::kind(kinds::NUMBER_MISLEADS, 500, 10),
        Need::kind(kinds::SIDES_DIFFER, 1_000, 20),
        Need::kind(marks::MAKES_A_CUT_ON_A, 300, 10),
        Need::kind(marks::MAKES_A_CUT_ON_B, 300, 10),
    ]],
};

/// Of each kind there are tables with many different counts of rows.
const KINDS_OF_TABLES: &[Need] = &[
    Need::kind(kinds::UNDER_TWO_ROWS, 10_000, 50),
    Need::kind(kinds::ON_ONE_SIDE_ALONE, 1_000, 20),
    Need::kind(kinds::TOUCHING, 5_000, 50),
    Need::kind(kinds::NESTED, 5_000, 30),
    Need::kind(kinds::EQUAL, 5_000, 50),
    Need::kind(kinds::DIRECTION_TELLS, 5_000, 30),
    Need::kind(kinds::OTHER_DIRECTIONS, 3_000, 30),
    Need::kind(kinds::NUMBER_MISLEADS, 5_000, 30),
    Need::kind(kinds::EMPTY_ROW, 5_000, 30),
    Need::kind(kinds::NOTHING_COVERED, 1_000, 20),
    Need::kind(kinds::PAST_32_BITS, 5_000, 40),
    Need::kind(kinds::COVERS_PAST_32_BITS, 2_000, 30),
    Need::kind(kinds::SIDES_DIFFER, 10_000, 50),
];

/// The counts are about those that a local store of the proved summary may have entries for.
const KINDS_OF_LONG_TABLES: &[Need] = &[
    Need::kind(kinds::OVER_4096, 50, 7),
    Need::kind(kinds::OVER_8192, 25, 3),
    Need::kind(kinds::OVER_16384, 10, 2),
    Need::kind(kinds::LONG_ROW, 30, 5),
    Need::kind(kinds::LONG_ROW_FIRST, 7, 7),
    Need::kind(kinds::LONG_ROW_LAST, 7, 7),
    Need::kind(kinds::LONG_AND_APART, 3, 2),
    Need::kind(kinds::RISING, 7, 7),
    Need::kind(kinds::FALLING, 7, 7),
];

fn compare(table: &[u32], random: &mut Random, tally: &mut Tally) -> Result<(), String> {
    compare_table(table, random, tally).map(|_| ())
}

/// What the door said, which the slow program said too.
fn compare_table(
    table: &[u32],
    random: &mut Random,
    tally: &mut Tally,
) -> Result<door::Summary, String> {
    let mut lent = door::Summary {
        pieces: random.any_usize(),
        distinct: random.any_usize(),
        covers: [(); 2].map(|()| random.any_u64()),
        classes: [(); 30].map(|()| random.any_usize()),
    };
    let slow = summary(table);
    tally.met(Ok(slow.distinct));
    for kind in kinds::of(table, &slow) {
        tally.met_outcome(Outcome::Kind(kind), slow.pieces);
    }
    let answer = door::summary(table, &mut lent);
    same("the answer", 0, answer)?;
    same("pieces", slow.pieces, lent.pieces)?;
    same("distinct", slow.distinct, lent.distinct)?;
    same_all("covers", &slow.covers, &lent.covers)?;
    same_all("classes", &slow.classes, &lent.classes)?;
    Ok(lent)
}

/// "in our own tables in at least one match": the slow program counts these by the matches too. A
/// script without a table has nothing to sum up.
fn compare_own(bytes: &[u8], random: &mut Random, tally: &mut Tally) -> Result<(), String> {
    let (Ok(script), Some(table)) = (script::read(bytes), own_table(bytes)) else {
        return Ok(());
    };
    marks::count(bytes, &script, tally);
    let lent = compare_table(&table, random, tally)?;
    same_all("by the matches, covers", &script.covers(), &lent.covers)
}

/// The rows that the door makes, if they are not too many for a table like the program's and for
/// one of ten times as many rows.
fn own_table(bytes: &[u8]) -> Option<Vec<u32>> {
    [ROWS, 10 * ROWS].into_iter().find_map(|capacity| {
        let mut table = vec![0; capacity * NUMBERS_OF_A_ROW];
        let mut work = vec![0; capacity * WORK_OF_A_ROW];
        let mut lent = Refining { place: 0, rows: 0 };
        let answer = door::refine(bytes, &mut table, &mut work, &mut lent);
        table.truncate(lent.rows * NUMBERS_OF_A_ROW);
        (answer == 0).then_some(table)
    })
}
