//! Scripts of many rows, most of them within the 3,000 of the program's table.

use super::good::LONGEST;
use super::marks;
use super::patterned;
use super::shapes::{cutter, match_up_to, script, script_with, staircase, zigzag};
use super::stretches::chain;
use crate::draft::{DraftMark, DraftMatch};
use crate::random::Random;
use crate::slow::report::ROWS;
use crate::slow::script::MOST_MATCHES;

const MOST: u32 = MOST_MATCHES as u32;

pub fn zigzags(random: &mut Random) -> Vec<Vec<u8>> {
    let lengths = [100, 200, 499, 500, ROWS as u32 / 2];
    let mut zigzag = |length| {
        let (on_a, reversed) = (random.any_bool(), random.any_bool());
        script(&zigzag(on_a, length, 1, reversed))
    };
    lengths.into_iter().map(&mut zigzag).collect()
}

pub fn staircases(random: &mut Random) -> Vec<Vec<u8>> {
    let sizes = [
        (100, 5, 1),
        (300, 100, 4),
        (999, 3, 1),
        (1_400, 9, 1),
        (2_047, 4, 0),
    ];
    let mut staircase = |(steps, length, cutters)| {
        let mut matches = staircase(random, steps, length);
        for _ in 0..cutters {
            matches.push(cutter(random, length, steps * length));
        }
        script(&matches)
    };
    sizes.into_iter().map(&mut staircase).collect()
}

/// As many matches as the columns of a short and of a middling script hold, one more and one less. The
/// last one cuts all others.
pub fn around_the_columns(random: &mut Random) -> Vec<Vec<u8>> {
    let counts = [31, 32, 33, 63, 64, 65, 255, 256, 257];
    let mut cut_by_the_last = |count: u32| {
        let length = random.between(3, 12);
        let steps = count - 1;
        let mut matches = staircase(random, steps, length);
        matches.push(cutter(random, length, steps * length));
        script(&matches)
    };
    let twice = counts.into_iter().cycle().take(2 * counts.len());
    twice.map(&mut cut_by_the_last).collect()
}

/// The same counts of matches with nothing but a mark to cut them.
pub fn columns_cut_by_a_mark(random: &mut Random) -> Vec<Vec<u8>> {
    marks::into_the_first(random, uncut_columns)
}

fn uncut_columns(random: &mut Random) -> Vec<Vec<u8>> {
    let counts = [31, 32, 33, 63, 64, 65, 255, 256, 257];
    let mut uncut = |count: u32| {
        let length = random.between(3, 12);
        script(&staircase(random, count, length))
    };
    let twice = counts.into_iter().cycle().take(2 * counts.len());
    twice.map(&mut uncut).collect()
}

/// 2,999 and 3,000 rows, and one more by a mark within the last match, on either side.
pub fn one_row_by_a_mark(random: &mut Random) -> Vec<Vec<u8>> {
    let mut scripts = Vec::new();
    for rows in [ROWS - 1, ROWS] {
        for side in [0, 1] {
            let mut matches = blocks_of(random, rows - 1);
            let behind = |left: fn(&DraftMatch) -> u32| {
                let ends = matches.iter().map(|m| left(m) + m.length);
                ends.max().expect("many matches") + 1
            };
            let (left_a, left_b) = (behind(|m| m.left_a), behind(|m| m.left_b));
            matches.push(DraftMatch::direct(left_a, left_b, 5));
            let position = random.between(1, 4) + if side == 0 { left_a } else { left_b };
            scripts.push(script_with(&matches, &[DraftMark { side, position }]));
        }
    }
    scripts
}

/// Matches and zigzags that stand apart, with just so many rows in all.
pub fn blocks(random: &mut Random) -> Vec<Vec<u8>> {
    let any = [(); 3].map(|()| random.count_between(1_000, ROWS));
    let around_the_most = [ROWS - 1, ROWS, ROWS, ROWS + 1, ROWS + 1];
    let counts = [any.as_slice(), &around_the_most].concat();
    let blocks = |rows| script(&blocks_of(random, rows));
    counts.into_iter().map(blocks).collect()
}

fn blocks_of(random: &mut Random, rows: usize) -> Vec<DraftMatch> {
    let mut matches: Vec<DraftMatch> = Vec::new();
    let (mut left_a, mut left_b) = (0, 0);
    let mut to_come = rows as u32;
    while to_come > 0 {
        let length = random.between(1, 20);
        let block = if to_come < 2 * length {
            to_come -= 1;
            vec![DraftMatch::direct(0, 0, length)]
        } else {
            to_come -= 2 * length;
            zigzag(random.any_bool(), length, 1, random.any_bool())
        };
        matches.extend(block.iter().map(|m| DraftMatch {
            left_a: left_a + m.left_a,
            left_b: left_b + m.left_b,
            ..*m
        }));
        left_a += length + 1 + random.between(0, 2);
        left_b += length + 1 + random.between(0, 2);
    }
    matches
}

/// Matches that lie anywhere and are short enough to overlap seldom.
pub fn few_overlaps(random: &mut Random) -> Vec<Vec<u8>> {
    let few_overlaps = |count| {
        let longest = LONGEST / (4 * count);
        let any_match = |_| match_up_to(random, LONGEST, longest);
        script(&(0..count).map(any_match).collect::<Vec<_>>())
    };
    let counts = [50, 100, 200, 400, 800, 1_200, MOST];
    counts.map(few_overlaps).to_vec()
}

/// On each side a chain in an order of its own, whose matches touch or leave a few letters between.
pub fn no_overlaps(random: &mut Random) -> Vec<Vec<u8>> {
    let mut scripts = Vec::new();
    for most_apart in [0, 1, 3, 1_000] {
        let next = |random: &mut Random, end| end + random.between(0, most_apart);
        let lengths: Vec<u32> = (0..MOST).map(|_| random.between(1, 20)).collect();
        let [on_a, on_b] = [(); 2].map(|()| chain(random, &lengths, next));
        let nth = |n: usize| DraftMatch {
            reversed: random.any_bool(),
            ..DraftMatch::direct(on_a[n], on_b[n], lengths[n])
        };
        let matches: Vec<DraftMatch> = (0..lengths.len()).map(nth).collect();
        scripts.push(script(&matches));
    }
    scripts
}

/// Every letter of every match is a piece.
pub fn single_letters(_: &mut Random) -> Vec<Vec<u8>> {
    let zigzags = [(true, 2_048), (false, 5_000)]
        .map(|(on_a, length)| script(&zigzag(on_a, length, 1, false)));
    let many = [13, 30, 90].map(|count| script(&patterned::matches(count)));
    [zigzags.as_slice(), &many].concat()
}

/// Matches that all overlap, with few cuts and a great many pieces.
pub fn too_many_pieces(_: &mut Random) -> Vec<Vec<u8>> {
    let nested = |i| DraftMatch::direct(i, i, 2 * (MOST - i));
    let centred = |i| DraftMatch::direct(MOST - i, MOST - i, 2 * i + 1);
    let sliding = |i| DraftMatch::direct(i, 2 * i, MOST);
    let kinds: [fn(u32) -> DraftMatch; 3] = [nested, centred, sliding];
    kinds
        .map(|nth| script(&(0..MOST).map(nth).collect::<Vec<_>>()))
        .to_vec()
}
