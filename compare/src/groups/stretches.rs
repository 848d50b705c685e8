//! Tables whose stretches lie to each other in a chosen way, for the letters that they cover.

use crate::random::Random;

/// Left-A, left-B and length; nothing else of a row tells.
pub type Row = [u32; 3];

const EACH: usize = 60;

pub fn overlaps(random: &mut Random) -> Vec<Vec<u32>> {
    tables_at_both_ends(random, |random| {
        let letters = random.between(1, 60);
        let longest = random.between(0, 10);
        let row =
            |random: &mut Random| [letters, letters, longest].map(|most| random.between(0, most));
        some(random, 30, row)
    })
}

/// On each side a chain in an order of its own: the next stretch has the last letter of the one
/// before, touches it, or leaves a letter between.
pub fn touching(random: &mut Random) -> Vec<Vec<u32>> {
    let next = |random: &mut Random, end: u32| {
        let apart = random.one_of(&[0, 1, 1, 2]);
        (end + apart).saturating_sub(1)
    };
    tables_at_both_ends(random, |random| {
        let lengths = some(random, 30, |random| random.between(0, 6));
        let [on_a, on_b] = [(); 2].map(|()| chain(random, &lengths, next));
        let row = |n: usize| [on_a[n], on_b[n], lengths[n]];
        (0..lengths.len()).map(row).collect()
    })
}

/// Left ends of stretches of these lengths, taken in any order: the `next` one is drawn from the
/// end of the stretch before.
pub fn chain(
    random: &mut Random,
    lengths: &[u32],
    next: impl Fn(&mut Random, u32) -> u32,
) -> Vec<u32> {
    let mut lefts = vec![0; lengths.len()];
    let mut end = 0;
    for n in shuffled(random, (0..lengths.len()).collect()) {
        lefts[n] = next(random, end);
        end = lefts[n] + lengths[n];
    }
    lefts
}

/// Each stretch lies in the one before, often with an end in common.
pub fn nested(random: &mut Random) -> Vec<Vec<u32>> {
    tables_at_both_ends(random, |random| {
        let [a, b] = [(); 2].map(|()| random.between(0, 50));
        let mut rows = vec![[a, b, random.between(1, 60)]];
        for _ in 0..random.between(1, 12) {
            let [a, b, longest] = rows[rows.len() - 1];
            let length = random.between(longest / 2, longest);
            let [on_a, on_b] = [(); 2].map(|()| {
                let inner = random.between(0, longest - length);
                random.one_of(&[0, inner, longest - length])
            });
            rows.push([a + on_a, b + on_b, length]);
        }
        shuffled(random, rows)
    })
}

/// Few rows many times, some of them with A and B exchanged.
pub fn equal(random: &mut Random) -> Vec<Vec<u32>> {
    tables_at_both_ends(random, |random| {
        let few = some(random, 4, |random| [(); 3].map(|()| random.between(0, 9)));
        some(random, 30, |random| {
            let [a, b, length] = random.one_of(&few);
            random.one_of(&[[a, b, length], [b, a, length]])
        })
    })
}

/// Some stretches, and rows of no letter within them, at their ends and elsewhere; or no letter at
/// all.
pub fn empty(random: &mut Random) -> Vec<Vec<u32>> {
    tables_at_both_ends(random, |random| {
        let longest = random.one_of(&[0, 1, 5]);
        some(random, 20, |random| {
            let length = random.between(0, longest);
            let lefts = [(); 2].map(|()| random.between(0, 20));
            [lefts[0], lefts[1], random.one_of(&[0, 0, length])]
        })
    })
}

/// Left ends and lengths around 0, 2^31 and 2^32.
pub fn around_32_bits(random: &mut Random) -> Vec<Vec<u32>> {
    let telling = |random: &mut Random| {
        let near = random.between(0, 4);
        let (middle, far) = ((1 << 31) - 2 + near, u32::MAX - near);
        let any = random.any_u32();
        random.one_of(&[near, near, middle, far, far, any])
    };
    let row = |random: &mut Random| [(); 3].map(|()| telling(random));
    tables(random, 4 * EACH, |random| some(random, 8, row))
}

/// One side has few letters, the other nearly all that there can be.
pub fn columns_that_differ(random: &mut Random) -> Vec<Vec<u32>> {
    tables(random, 2 * EACH, |random| {
        let step = random.between(1, 1 << 26);
        some(random, 30, |random| {
            let length = random.between(1, 2 * step);
            [random.between(0, 9), step * random.between(0, 63), length]
        })
    })
}

fn tables(
    random: &mut Random,
    count: usize,
    rows: impl Fn(&mut Random) -> Vec<Row>,
) -> Vec<Vec<u32>> {
    let mut tables = Vec::new();
    for _ in 0..count {
        let rows = rows(random);
        tables.push(table(random, rows));
    }
    tables
}

/// Tables at the beginning of both sequences, and as far out as left ends can be.
fn tables_at_both_ends(
    random: &mut Random,
    rows: impl Fn(&mut Random) -> Vec<Row>,
) -> Vec<Vec<u32>> {
    let mut all = tables(random, EACH, &rows);
    all.extend(tables(random, EACH, |random| far_out(&rows(random))));
    all
}

/// The last left end of each side is the last number of 32 bits.
fn far_out(rows: &[Row]) -> Vec<Row> {
    let slack = |side: usize| u32::MAX - rows.iter().map(|row| row[side]).max().unwrap_or(0);
    let (on_a, on_b) = (slack(0), slack(1));
    let shifted = |&[a, b, length]: &Row| [a + on_a, b + on_b, length];
    rows.iter().map(shifted).collect()
}

/// The rows with any match numbers and directions, or the same with A and B exchanged, often with
/// numbers behind them that form no row.
pub fn table(random: &mut Random, rows: Vec<Row>) -> Vec<u32> {
    let exchanged = random.any_bool();
    let mut table = Vec::new();
    for [a, b, length] in rows {
        let [a, b] = if exchanged { [b, a] } else { [a, b] };
        table.extend([random.between(0, 3), a, b, length, random.between(0, 2)]);
    }
    let more = random.count_between(0, 4);
    table.extend(random.any_numbers(more));
    table
}

/// From one to `most` of them.
fn some<T>(random: &mut Random, most: usize, one: impl Fn(&mut Random) -> T) -> Vec<T> {
    let count = random.count_between(1, most);
    (0..count).map(|_| one(random)).collect()
}

pub fn shuffled<T>(random: &mut Random, mut all: Vec<T>) -> Vec<T> {
    random.shuffle(&mut all);
    all
}
