//! Tables, most of which no script has.

use super::{patterned, shapes, tiny};
use crate::random::Random;
use crate::slow::report::ROWS;
use crate::slow::table::{refine, NUMBERS_OF_A_ROW, WORK_OF_A_ROW};

/// Small numbers, so that runs break, come again, and rows agree in some fields.
pub fn few_numbers(random: &mut Random) -> Vec<Vec<u32>> {
    let mut tables = Vec::new();
    for _ in 0..1_000 {
        let length = random.count_between(0, 60);
        let most = random.between(0, 3);
        tables.push((0..length).map(|_| random.between(0, most)).collect());
    }
    tables
}

pub fn any_numbers(random: &mut Random) -> Vec<Vec<u32>> {
    let mut tables = Vec::new();
    for _ in 0..200 {
        let length = random.count_between(0, 200);
        tables.push((0..length).map(|_| random.any_u32()).collect());
    }
    tables
}

pub fn powers_of_two(random: &mut Random) -> Vec<Vec<u32>> {
    let around = |c: u32| [(1_u32 << c) - 1, 1 << c, (1 << c) + 1];
    let values: Vec<u32> = (0..32).flat_map(around).chain([u32::MAX]).collect();
    let mut tables = Vec::new();
    for &length in &values {
        let few = random.count_between(1, 4);
        let row = [1, random.between(0, 1), 0, length, 0];
        let other = [2, 0, 0, random.one_of(&values), 0];
        tables.push([row.repeat(few), other.to_vec()].concat());
    }
    tables
}

/// Pieces that differ in direction or match number alone.
pub fn directions(random: &mut Random) -> Vec<Vec<u32>> {
    let mut tables = Vec::new();
    for _ in 0..500 {
        let rows = random.count_between(0, 40);
        let stretches = random.between(0, 2);
        let directions = &[0, 1, 2, 3, 1 << 31, u32::MAX][..random.count_between(1, 6)];
        let row = |_| {
            let left = random.between(0, stretches);
            let number = random.between(1, 3);
            [number, left, left, 5, random.one_of(directions)]
        };
        tables.push((0..rows).flat_map(row).collect());
    }
    tables
}

/// What scripts refine to, often with numbers behind it that form no row.
pub fn of_scripts(random: &mut Random) -> Vec<Vec<u32>> {
    let scripts = [
        tiny::a_few(random),
        shapes::overlaps(random),
        shapes::identical(random),
        shapes::staircases(random),
    ];
    let mut tables = Vec::new();
    for script in scripts.iter().flatten() {
        let mut table = vec![0; ROWS * NUMBERS_OF_A_ROW];
        let mut work = vec![0; ROWS * WORK_OF_A_ROW];
        if let Ok(rows) = refine(script, &mut table, &mut work) {
            table.truncate(rows * NUMBERS_OF_A_ROW + random.count_between(0, 4));
            tables.push(table);
        }
    }
    tables
}

pub fn every_small_length(random: &mut Random) -> Vec<Vec<u32>> {
    let table = |length| vec![random.between(0, 2); length];
    (0..=3 * NUMBERS_OF_A_ROW).map(table).collect()
}

/// Rows that rise by match number as in our own tables, and rows in no order. Their left ends are
/// few, many, or many with the same last bits; of some the mirror image is there too.
pub fn long(random: &mut Random) -> Vec<Vec<u32>> {
    let mut tables = Vec::new();
    for rows in [ROWS, 10_000] {
        for (most, step) in [(2, 1), (1_000, 1), (1_000, 1 << 12), (u32::MAX, 1)] {
            let mut numbers: Vec<u32> = (0..rows).map(|_| random.between(0, most)).collect();
            if random.any_bool() {
                numbers.sort_unstable();
            }
            let row = |number| {
                let left_a = step * random.between(0, most);
                [number, left_a, 3, random.between(0, 9), random.between(0, 1)]
            };
            tables.push(numbers.into_iter().flat_map(row).collect());
        }
    }
    tables
}

/// Lengths around those where the proved summary takes a larger store, and one more pass over the table.
pub fn patterned(_: &mut Random) -> Vec<Vec<u32>> {
    [100, 224, 225, 1_000, 3_584, 3_585, 23_999, 24_000, 48_000]
        .into_iter()
        .flat_map(patterned::all)
        .map(|(_, table)| table)
        .collect()
}
