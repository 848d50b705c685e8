//! Refines long zigzags, to be run under a small stack, each cut carried from the last: of 100,000 and 1,000,000 rows
//! by themselves, of 100,000 rows where every other cut comes from a mark, and of about 100,000 rows among up to 2,048
//! matches that lie over them and behind them. Every match is cut into single letters. A script is refined with just
//! enough rows and with more, and is refused with one row less. Its last line is `zigzag: N rows, 0 differences`, and
//! its status 0, only if all tables have just those rows.

use compare::door::{self, Refining};
use compare::draft::{DraftMark, DraftMatch};
use compare::groups::shapes::{match_up_to, script_with, zigzag};
use compare::part::{same, same_all};
use compare::random::Random;
use std::process::ExitCode;

const TOO_MANY_PIECES: u32 = 12;
const RUBBISH: u32 = 7;

/// A zigzag of so many letters among so many matches in all. The others have up to `longest` letters; one in
/// `seldom_over` lies over the zigzag, and the rest behind it.
struct Among {
    matches: usize,
    letters: u32,
    longest: u32,
    seldom_over: u32,
}

const AMONG: [Among; 6] = [
    among(33, 49_000, 1, 1),
    among(100, 45_000, 200, 2),
    among(1_000, 40_000, 30, 20),
    among(2_047, 45_000, 1, 400),
    among(2_048, 48_000, 1, 1),
    among(2_048, 24_000, 50, 1),
];

const fn among(matches: usize, letters: u32, longest: u32, seldom_over: u32) -> Among {
    Among {
        matches,
        letters,
        longest,
        seldom_over,
    }
}

fn main() -> ExitCode {
    match all_rows() {
        Ok(rows) => {
            println!("zigzag: {rows} rows, 0 differences");
            ExitCode::SUCCESS
        }
        Err(difference) => {
            println!("zigzag: {difference}");
            ExitCode::FAILURE
        }
    }
}

/// The rows of all scripts together.
fn all_rows() -> Result<usize, String> {
    let alone = [50_000, 500_000].map(|letters| zigzag(true, letters, 1, false));
    let mut rows = 0;
    for matches in alone {
        rows += refined_rows(&matches, &[])?;
    }
    for side in [0, 1] {
        let mark = DraftMark { side, position: 1 };
        rows += refined_rows(&zigzag(side == 0, 50_000, 2, false), &[mark])?;
    }
    let mut random = Random::from_seed(2002);
    for kind in &AMONG {
        for reversed in [false, true] {
            for in_order in [false, true] {
                let mut matches = matches_of(kind, reversed, &mut random);
                if in_order {
                    matches.sort_by_key(|m| (m.left_a, m.left_b));
                } else {
                    random.shuffle(&mut matches);
                }
                rows += refined_rows(&matches, &[])?;
            }
        }
    }
    Ok(rows)
}

/// What lies behind the zigzag has one letter, and what lies over it is cut with it.
fn matches_of(kind: &Among, reversed: bool, random: &mut Random) -> Vec<DraftMatch> {
    let on_a = random.any_bool();
    let mut matches = zigzag(on_a, kind.letters, 1, reversed);
    let behind = kind.letters + 2;
    while matches.len() < kind.matches {
        let over = random.between(1, kind.seldom_over) == 1;
        let (longest, shift) = if over { (kind.longest, 0) } else { (1, behind) };
        let m = match_up_to(random, kind.letters, longest);
        let (on_a, on_b) = random.one_of(&[(shift, shift), (shift, behind), (behind, shift)]);
        matches.push(DraftMatch {
            left_a: m.left_a + on_a,
            left_b: m.left_b + on_b,
            ..m
        });
    }
    matches
}

/// Holds the calls for these matches and marks to their letters, which are as many as the rows.
fn refined_rows(matches: &[DraftMatch], marks: &[DraftMark]) -> Result<usize, String> {
    let bytes = script_with(matches, marks);
    let letters: Vec<u32> = (1..).zip(matches).flat_map(letters_of).collect();
    let rows = letters.len() / 5;
    for (capacity, longer) in [(rows, 0), (rows, 999), (rows + 1, 0), (2 * rows, 3)] {
        hold(&bytes, capacity, longer, Ok(&letters))?;
    }
    for (capacity, longer) in [(rows - 1, 0), (rows / 2, 3)] {
        hold(&bytes, capacity, longer, Err(TOO_MANY_PIECES))?;
    }
    Ok(rows)
}

/// The rows of a match that is cut into letters.
fn letters_of((number, m): (u32, &DraftMatch)) -> impl Iterator<Item = u32> + '_ {
    (0..m.length).flat_map(move |n| {
        let on_b = if m.reversed { m.length - 1 - n } else { n };
        let direction = m.reversed.into();
        [number, m.left_a + n, m.left_b + on_b, 1, direction]
    })
}

/// Holds a call with `capacity` rows, and some numbers of work more than they need, to the rows or the refusal wanted.
fn hold(
    bytes: &[u8],
    capacity: usize,
    longer: usize,
    wanted: Result<&[u32], u32>,
) -> Result<(), String> {
    let mut table = vec![RUBBISH; 5 * capacity];
    let mut work = vec![RUBBISH; 4 * capacity + longer];
    let mut lent = Refining { place: 3, rows: 4 };
    let mut wanted_table = table.clone();
    let rows = wanted.unwrap_or_default();
    wanted_table[..rows.len()].copy_from_slice(rows);
    let (number, place, count) = match wanted {
        Ok(rows) => (0, 3, rows.len() / 5),
        Err(refusal) => (refusal, 0, 4),
    };
    let answer = door::refine(bytes, &mut table, &mut work, &mut lent);
    same("the answer", number, answer)
        .and_then(|()| same("place", place, lent.place))
        .and_then(|()| same("rows", count, lent.rows))
        .and_then(|()| same_all("table", &wanted_table, &table))
        .and_then(|()| same_all("work", &vec![0; work.len()], &work))
        .map_err(|what| format!("with {capacity} rows and {longer} numbers more, {what}"))
}
