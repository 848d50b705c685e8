//! `notchergrey_rows_of` beside the slow program.

use crate::door::{self, RowsOf};
use crate::groups;
use crate::part::{same, Part};
use crate::random::Random;
use crate::slow::table::{rows_of, NUMBERS_OF_A_ROW};
use crate::tally::{Need, Tally};

pub const PART: Part<u32> = Part {
    name: "notchergrey_rows_of",
    once: &[groups::LONG_TABLES],
    each_round: &[groups::TABLES],
    least: 20_000,
    compare,
    needs: &[&[Need::success(100_000, 100)]],
};

fn compare(table: &[u32], random: &mut Random, tally: &mut Tally) -> Result<(), String> {
    for number in numbers(table, random) {
        compare_one(table, number, random, tally)
            .map_err(|what| format!("of match {number} {what}"))?;
    }
    Ok(())
}

/// Numbers of some rows and others, also the last number of the table, which may form no row.
fn numbers(table: &[u32], random: &mut Random) -> Vec<u32> {
    let mut numbers = vec![0, 1, 2, random.any_u32(), u32::MAX];
    numbers.extend(table.last());
    let rows = table.len() / NUMBERS_OF_A_ROW;
    for _ in 0..rows.min(5) {
        let row = random.count_between(0, rows - 1);
        numbers.push(table[row * NUMBERS_OF_A_ROW]);
    }
    numbers.sort_unstable();
    numbers.dedup();
    numbers
}

fn compare_one(
    table: &[u32],
    number: u32,
    random: &mut Random,
    tally: &mut Tally,
) -> Result<(), String> {
    let mut lent = RowsOf {
        start: random.any_usize(),
        end: random.any_usize(),
    };
    let slow = rows_of(table, number);
    tally.met(Ok(slow.end));
    let answer = door::rows_of(table, number, &mut lent);
    same("the answer", 0, answer)?;
    same("start", slow.start, lent.start)?;
    same("end", slow.end, lent.end)
}
