//! Tables of so many rows that a count in parts takes several, which must fit together.

use super::stretches::{shuffled, table, Row};
use crate::random::Random;

/// How many rows: about the numbers of entries that a local store may have, and several times that.
const MANY: [usize; 16] = [
    255, 256, 257, 3_000, 4_095, 4_096, 4_097, 5_119, 5_120, 5_121, 8_191, 8_192, 8_193, 9_000,
    20_000, 40_000,
];

/// Puts rows whose left-A rises in an order.
type Order = fn(&mut Random, Vec<Row>) -> Vec<Row>;

/// No two stretches touch, in each of some orders.
pub fn in_some_orders(random: &mut Random) -> Vec<Vec<u32>> {
    let orders: [Order; 5] = [
        shuffled,
        |_, rows| rows,
        |_, rows| rows.into_iter().rev().collect(),
        |_, rows| halves_by_turns(&rows),
        |_, rows| greatest_at_equal_distances(&rows),
    ];
    let mut tables = Vec::new();
    for count in MANY {
        for order in orders {
            let rows = apart(random, count);
            let rows = order(random, rows);
            tables.push(table(random, rows));
        }
    }
    tables
}

fn apart(random: &mut Random, count: usize) -> Vec<Row> {
    let steps = [(); 2].map(|()| step(random, count));
    apart_by(random, count, steps)
}

/// Left-A rises, and left-B follows an order of its own.
fn apart_by(random: &mut Random, count: usize, [step_a, step_b]: [u32; 2]) -> Vec<Row> {
    const LONGEST: u32 = 6;
    let left = |random: &mut Random, step: u32, k: u32| {
        let within = random.between(0, step - 1 - LONGEST);
        step * k + within
    };
    let order_on_b = shuffled(random, (0..count as u32).collect());
    let rows = (0..).zip(order_on_b);
    rows.map(|(on_a, on_b)| {
        [
            left(random, step_a, on_a),
            left(random, step_b, on_b),
            random.between(1, LONGEST),
        ]
    })
    .collect()
}

/// From one left end to the next: near each other, or over all numbers of 32 bits.
fn step(random: &mut Random, count: usize) -> u32 {
    random.one_of(&[8, 64, u32::MAX / count as u32])
}

fn halves_by_turns(rows: &[Row]) -> Vec<Row> {
    let (first, second) = rows.split_at(rows.len() / 2);
    let nth = |k: usize| {
        if k.is_multiple_of(2) {
            second[k / 2]
        } else {
            first[k / 2]
        }
    };
    (0..rows.len()).map(nth).collect()
}

/// Who looks only at some rows, at equal distances, may see the greatest alone.
fn greatest_at_equal_distances(rows: &[Row]) -> Vec<Row> {
    let distance = rows.len() / 4_096 + 1;
    let mut rising = rows.iter();
    let mut place = |k: usize| {
        if k.is_multiple_of(distance) {
            rising.next_back()
        } else {
            rising.next()
        }
    };
    (0..rows.len()).filter_map(&mut place).copied().collect()
}

/// A row over all the others as the first, in the middle and as the last.
pub fn one_over_all(random: &mut Random) -> Vec<Vec<u32>> {
    let mut tables = Vec::new();
    for count in MANY {
        for place in [0, (count - 1) / 2, count - 1] {
            let rows = apart(random, count - 1);
            let mut rows = shuffled(random, rows);
            let [near, less] = [(); 2].map(|()| random.between(0, 5));
            rows.insert(place, [near, near, u32::MAX - less]);
            tables.push(table(random, rows));
        }
    }
    tables
}

/// One row or two that reach over up to a third of the others.
pub fn reaching_on(random: &mut Random) -> Vec<Vec<u32>> {
    let reaching = |random: &mut Random, count: usize| {
        let step = step(random, count);
        let mut rows = apart_by(random, count, [step, step]);
        for _ in 0..random.between(1, 2) {
            let from = random.count_between(0, count - 1);
            let over = random.count_between(1, count / 3) as u32;
            rows[from][2] = step * over + random.between(0, step);
        }
        shuffled(random, rows)
    };
    [(); 4].map(|()| many(random, reaching)).concat()
}

/// Each stretch touches the next, but for some that are missing.
pub fn touching_with_holes(random: &mut Random) -> Vec<Vec<u32>> {
    many(random, |random, count| {
        let step = step(random, count);
        let order_on_b = shuffled(random, (0..count as u32).collect());
        let row = |(on_a, on_b)| [step * on_a, step * on_b, step];
        let rows = (0..).zip(order_on_b).map(row).collect();
        let mut rows = shuffled(random, rows);
        rows.truncate(count - random.count_between(0, 9));
        rows
    })
}

/// Each stretch reaches over the next few, or over none.
pub fn overlaps(random: &mut Random) -> Vec<Vec<u32>> {
    many(random, |random, count| {
        let [most_a, most_b] = [(); 2].map(|()| step(random, count) * (count as u32 - 1));
        let longest = random.one_of(&[most_a, most_b]) / count as u32 * 3;
        let row = |_| [most_a, most_b, longest].map(|most| random.between(0, most));
        (0..count).map(row).collect()
    })
}

/// Nearly all stretches lie near the beginning of one side, ever fewer further on.
pub fn skewed(random: &mut Random) -> Vec<Vec<u32>> {
    many(random, |random, count| {
        let row = |_| {
            let bits = random.between(1, 32);
            let left = random.any_u32() >> (32 - bits);
            [left, random.any_u32(), random.between(0, left / 64 + 1)]
        };
        (0..count).map(row).collect()
    })
}

/// Rows that come hundreds of times.
pub fn duplicates(random: &mut Random) -> Vec<Vec<u32>> {
    many(random, |random, count| {
        let times = random.count_between(2, 200);
        let few = apart(random, count / times);
        (0..count).map(|_| random.one_of(&few)).collect()
    })
}

/// More rows with one left end on A than a store may have entries.
pub fn one_left_end(random: &mut Random) -> Vec<Vec<u32>> {
    many(random, |random, count| {
        let left = random.one_of(&[0, 7, u32::MAX]);
        let others = count / 100;
        let mut rows = apart(random, count);
        for row in &mut rows[others..] {
            *row = [left, row[1], random.between(0, 1_000)];
        }
        shuffled(random, rows)
    })
}

/// A table of each count of rows.
fn many(random: &mut Random, rows: impl Fn(&mut Random, usize) -> Vec<Row>) -> Vec<Vec<u32>> {
    let mut tables = Vec::new();
    for count in MANY {
        let rows = rows(random, count);
        tables.push(table(random, rows));
    }
    tables
}
