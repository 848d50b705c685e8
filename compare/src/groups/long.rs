//! Scripts whose cuts take many turns to find, with many matches or many cuts.

use super::marks;
use super::shapes::{cutter, match_up_to, script, scripts, staircase, zigzag};
use crate::draft::DraftMatch;
use crate::random::Random;
use crate::slow::script::MOST_MATCHES;

const MOST: u32 = MOST_MATCHES as u32;

/// Zigzags of a few letters' shift, whose cuts walk from both ends of both sides, and short matches
/// over them, between them and behind them.
pub fn walkers(random: &mut Random) -> Vec<Vec<u8>> {
    scripts(random, |random| {
        let letters = random.between(30, 150);
        let longest = random.one_of(&[1, 1, 2, 5, letters / 8]);
        let count = some_count(random);
        walker(random, count, letters, longest)
    })
}

/// The same under matches that are as long as a zigzag.
pub fn zigzags_inside(random: &mut Random) -> Vec<Vec<u8>> {
    scripts(random, |random| {
        let letters = random.between(20, 40);
        let count = some_count(random);
        walker(random, count, letters, letters)
    })
}

fn some_count(random: &mut Random) -> u32 {
    random.one_of(&[33, 34, 48, 63, 65, 100, 200])
}

fn walker(random: &mut Random, count: u32, letters: u32, longest: u32) -> Vec<DraftMatch> {
    let (pairs, apart) = (random.between(1, 3), random.one_of(&[1, 1, 1, 2, 3, 7]));
    let mut matches = Vec::new();
    for _ in 0..pairs {
        let length = random.between(letters / 2, letters);
        let pair = zigzag(random.any_bool(), length, apart, random.any_bool());
        let (on_a, on_b) = (random.between(0, letters), random.between(0, letters));
        matches.extend(pair.into_iter().map(|m| shifted(m, on_a, on_b)));
    }
    let over = random.one_of(&[0, 10, count / 2, count]);
    let behind = 2 * letters + apart;
    for n in matches.len() as u32..count {
        let m = match_up_to(random, 2 * letters, longest);
        let shift = if n < over { 0 } else { behind };
        let [on_a, on_b] = [(); 2].map(|()| random.one_of(&[shift, behind]));
        matches.push(shifted(m, on_a, on_b));
    }
    ordered(random, matches)
}

fn shifted(m: DraftMatch, on_a: u32, on_b: u32) -> DraftMatch {
    DraftMatch {
        left_a: m.left_a + on_a,
        left_b: m.left_b + on_b,
        ..m
    }
}

/// As they are, rising, falling or in any order.
fn ordered(random: &mut Random, mut matches: Vec<DraftMatch>) -> Vec<DraftMatch> {
    match random.between(0, 3) {
        0 => {}
        1 => matches.sort_by_key(|m| (m.left_a, m.left_b)),
        2 => matches.sort_by_key(|m| std::cmp::Reverse((m.left_b, m.left_a))),
        _ => random.shuffle(&mut matches),
    }
    matches
}

/// Staircases that are cut at their first steps, in any order, some with a zigzag on a step.
pub fn staircases(random: &mut Random) -> Vec<Vec<u8>> {
    scripts(random, |random| {
        let (steps, length) = (random.between(20, 120), random.between(2, 50));
        let mut matches = staircase(random, steps, length);
        for _ in 0..random.between(13, 30) {
            let behind = (steps + random.between(0, 20)) * length;
            matches.push(cutter(random, length, behind));
        }
        if random.between(0, 3) == 0 {
            let step = matches[random.count_between(0, steps as usize - 1)];
            let shift = if step.length > 5 { 1 } else { 0 };
            matches.push(shifted(step, shift, 0));
        }
        ordered(random, matches)
    })
}

/// Staircases that nothing cuts but marks at one end, and now and then a match of one letter behind them.
pub fn staircases_cut_by_marks(random: &mut Random) -> Vec<Vec<u8>> {
    marks::into_the_first(random, uncut_staircases)
}

fn uncut_staircases(random: &mut Random) -> Vec<Vec<u8>> {
    scripts(random, |random| {
        let (steps, length) = (random.between(33, 120), random.between(2, 50));
        let mut matches = staircase(random, steps, length);
        let behind = (steps + 1) * length;
        for n in 0..random.between(0, 20) {
            matches.push(DraftMatch::direct(behind + 2 * n, behind + 2 * n, 1));
        }
        ordered(random, matches)
    })
}

/// Cuts that come late to many matches at once.
pub fn crowds(random: &mut Random) -> Vec<Vec<u8>> {
    scripts(random, |random| {
        let (cutters, copies) = (random.between(2, 12), random.between(10, 60));
        let apart = random.between(0, copies * cutters);
        crowd(random, cutters, copies, apart)
    })
}

/// The same with up to 2,048 matches.
pub fn large_crowds(random: &mut Random) -> Vec<Vec<u8>> {
    let mut drawn = Vec::new();
    for _ in 0..60 {
        let (cutters, copies) = (random.between(5, 25), random.between(50, 150));
        let apart = random.between(500, 1_800);
        drawn.push(script(&crowd(random, cutters, copies, apart)));
    }
    drawn
}

/// The cuts of a first stretch go over a staircase to copies of one of its steps, or to matches from one of
/// its stretches to stretches of their own. So many others, which share no letter with anything, take places.
fn crowd(random: &mut Random, cutters: u32, copies: u32, apart: u32) -> Vec<DraftMatch> {
    let steps = random.one_of(&[4, 5, 6, 7, 20, 30]);
    let length = random.between(2 * cutters, 60);
    let mut matches = staircase(random, steps, length);
    let crowded = matches[random.count_between(3, steps as usize - 1)];
    let behind = (steps + 1) * length;
    let (alike, from_a) = (random.any_bool(), random.any_bool());
    matches.extend((0..copies).map(|n| match (alike, from_a) {
        (true, _) => crowded,
        (false, true) => DraftMatch {
            left_b: behind + n * length,
            ..crowded
        },
        (false, false) => DraftMatch {
            left_a: behind + n * length,
            ..crowded
        },
    }));
    let far = behind + copies * length;
    for n in 0..cutters {
        matches.push(cutter(random, length, far + n * length));
    }
    let further = far + cutters * length;
    matches.extend((0..apart).map(|n| DraftMatch::direct(further + 2 * n, further + 2 * n, 1)));
    ordered(random, matches)
}

/// Matches that nearly all overlap, so that their ends alone make too many pieces, or nearly.
pub fn overlapping(random: &mut Random) -> Vec<Vec<u8>> {
    let counts = [33, 64, 65, 100, 300, 700, 1_000, MOST];
    let mut drawn = Vec::new();
    for count in counts {
        for _ in 0..5 {
            let letters = random.one_of(&[200, 5_000, 1_000_000]);
            let shift = random.between(1, 10);
            let longest = random.one_of(&[letters / 10, letters]);
            let matches = (0..count).map(|n| match random.between(0, 1) {
                0 => match_up_to(random, letters, longest),
                _ => DraftMatch {
                    reversed: random.any_bool(),
                    ..DraftMatch::direct(n, shift * n, letters)
                },
            });
            drawn.push(script(&matches.collect::<Vec<_>>()));
        }
    }
    drawn
}

/// Up to 2,048 matches, two to six of which make zigzags of a few hundred letters.
pub fn many_matches(random: &mut Random) -> Vec<Vec<u8>> {
    let counts = [
        255,
        256,
        257,
        500,
        511,
        512,
        513,
        1_000,
        MOST - 1,
        MOST,
        MOST,
    ];
    let mut drawn = Vec::new();
    for count in counts {
        for over in [0, 4, count / 16, count] {
            drawn.push(script(&long_walker(random, count, 400, 1, over)));
        }
        for longest in [1, 5, 30, 30] {
            drawn.push(script(&walker(random, count, 300, longest)));
        }
    }
    drawn
}

/// More than 512, 16,384 and 40,000 cuts on a side, a few new ones in a turn or up to some thousand.
pub fn many_cuts(random: &mut Random) -> Vec<Vec<u8>> {
    let sizes = [
        (33, 511, 1),
        (33, 600, 1),
        (34, 1_200, 1),
        (40, 3_000, 2),
        (33, 16_383, 1),
        (33, 16_385, 1),
        (64, 17_000, 7),
        (500, 18_000, 100),
        (1_200, 17_500, 513),
        (MOST, 18_000, 300),
        (33, 20_000, 20),
        (33, 33_000, 11),
        (33, 34_000, 16),
        (1_500, 36_000, 1_100),
        (40, 40_001, 1),
        (300, 41_000, 200),
        (MOST, 41_000, 400),
        (MOST, 42_000, 1_000),
        (100, 43_000, 40),
    ];
    let mut drawn = Vec::new();
    for (count, letters, apart) in sizes {
        for over in [apart, apart / 3 + 1] {
            drawn.push(script(&long_walker(random, count, letters, apart, over)));
        }
    }
    drawn
}

/// A zigzag of so many letters, and matches of one letter, some of them over the zigzag's first letters
/// and the others behind it.
fn long_walker(
    random: &mut Random,
    count: u32,
    letters: u32,
    apart: u32,
    over: u32,
) -> Vec<DraftMatch> {
    let on_a = random.any_bool();
    let mut matches = zigzag(on_a, letters, apart, random.any_bool());
    let behind = letters + apart + 1;
    for n in 0..count - 2 {
        let first = if n < over {
            n % apart.max(10)
        } else {
            behind + random.between(0, 2 * count)
        };
        let second = behind + 2 * n;
        let (left_a, left_b) = if on_a {
            (first, second)
        } else {
            (second, first)
        };
        matches.push(DraftMatch {
            reversed: random.any_bool(),
            ..DraftMatch::direct(left_a, left_b, 1)
        });
    }
    ordered(random, matches)
}
