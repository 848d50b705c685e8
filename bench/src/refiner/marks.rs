//! Refining 2,048 matches with 512 marks beside refining the same matches without.

use super::cases::{some_matches, LONGEST};
use super::shapes::{cut_staircase, repeats, walkers, MOST};
use super::{check, rows_of, Lent, Rival, HASH, SORTED, TREE};
use crate::reader::cases::mixed;
use crate::timing::Timing;
use compare::draft::{DraftMark, DraftMatch};
use compare::random::Random;
use compare::slow::report::ROWS;
use compare::slow::script::{MOST_MARKS, MOST_MATCHES};
use compare::slow::table::NUMBERS_OF_A_ROW;
use std::hint::black_box;

const SCRIPTS: usize = 4;

/// The same matches without marks and with them.
struct Pair {
    without: Vec<u8>,
    with: Vec<u8>,
}

type Of = fn(&Pair) -> &[u8];
const WITHOUT: Of = |pair| &pair.without;
const WITH: Of = |pair| &pair.with;

/// Pairs of one kind, and the rows for which a table is lent, to both of a pair.
struct Case {
    name: String,
    pairs: Vec<Pair>,
    capacity: usize,
}

pub fn run() {
    println!(
        "\n{:<38} {:>6} {:>6} {:>10} {:>10} {:>6} {:>7} {:>7} {:>8} {:>6}",
        "marks",
        "rows",
        "with",
        "without us",
        "with us",
        "ratio",
        "per row",
        "plain",
        "to best",
        "with"
    );
    for case in all() {
        report(&case);
    }
    println!(
        "rows, without: the matches alone. with: and their marks, up to 512, anywhere among them."
    );
    println!(
        "ratio: with marks to without. per row: the same of the times for each row of the table."
    );
    println!(
        "plain: with marks to without, of the fastest plain program. to best: as in refining."
    );
}

fn report(case: &Case) {
    let rows = [WITHOUT, WITH].map(|script| case.mean_rows(script));
    let proved = |script: Of| {
        let mut lent = Lent::to(case.capacity);
        move |pair: &Pair| _ = black_box(lent.refine(script(pair)))
    };
    let plain = |rival: Rival, script: Of| {
        let mut table = vec![0; case.capacity * NUMBERS_OF_A_ROW];
        move |pair: &Pair| _ = black_box(rival(script(pair), &mut table))
    };
    let timing = Timing {
        calls: case.pairs.len(),
        inputs: &case.pairs,
    };
    let times = timing.medians([
        &mut proved(WITHOUT),
        &mut proved(WITH),
        &mut plain(TREE, WITHOUT),
        &mut plain(TREE, WITH),
        &mut plain(HASH, WITHOUT),
        &mut plain(HASH, WITH),
        &mut plain(SORTED, WITHOUT),
        &mut plain(SORTED, WITH),
    ]);
    let [without, with] = [times[0], times[1]];
    let best = [2, 3].map(|first| times[first].min(times[first + 2]).min(times[first + 4]));
    let ratio = with / without;
    println!(
        "{:<38} {:>6} {:>6} {:>10.1} {:>10.1} {:>6.2} {:>7.2} {:>7.2} {:>8.2} {:>6.2}",
        case.name,
        rows[0],
        rows[1],
        without / 1e3,
        with / 1e3,
        ratio,
        ratio * rows[0] as f64 / rows[1] as f64,
        best[1] / best[0],
        without / best[0],
        with / best[1]
    );
}

impl Case {
    fn mean_rows(&self, script: Of) -> usize {
        let rows = self.pairs.iter().map(|pair| {
            let answer = check(&self.name, self.capacity, script(pair));
            answer.expect("no refusal")
        });
        rows.sum::<usize>() / self.pairs.len()
    }
}

type Matches<'a> = &'a dyn Fn(&mut Random) -> Vec<DraftMatch>;
type Marks = fn(&mut Random, &[DraftMatch]) -> DraftMark;

fn all() -> Vec<Case> {
    let mut random = Random::from_seed(2002);
    let mut cases = Vec::new();
    let mut add = |name: &str, matches: Matches, marks: Marks| {
        cases.push(case(&mut random, name, matches, marks, ROWS));
    };
    let some: Matches = &|random| some_matches(random, MOST_MATCHES);
    add("anywhere, marks anywhere", some, anywhere);
    add("anywhere, all unspanned", some, unspanned);
    add("anywhere, at ends of matches", some, at_an_end);
    add("anywhere, inside of matches", some, inside);
    add("anywhere, all in the last match", some, in_the_last);
    let separate: Matches = &|_| separate();
    add("separate, in order, all unspanned", separate, unspanned);
    let shuffled: Matches = &|random| shuffled(random, self::separate());
    add("separate, shuffled, all unspanned", shuffled, unspanned);
    add("separate, shuffled, at ends", shuffled, at_an_end);
    add("separate, shuffled, inside", shuffled, inside);
    add("separate, all in the last match", shuffled, in_the_last);
    let copies: Matches = &|_| copies();
    add("one match 2047 times, all unspanned", copies, unspanned);
    add(
        "one match 2047 times, at the last end",
        copies,
        at_the_last_end,
    );
    let staircase: Matches = &|random| {
        let matches = cut_staircase(random, MOST - 1);
        self::shuffled(random, matches)
    };
    add("staircase, shuffled, all unspanned", staircase, unspanned);
    let repeated: Matches = &|random| repeats(random, 45);
    add("repeats, 45 by 45, all unspanned", repeated, unspanned);
    let walking: Matches = &|random| {
        let mut matches = walkers((ROWS as u32 - (MOST - 8)) / 8, MOST - 8);
        random.shuffle(&mut matches[8..]);
        matches
    };
    add("walkers, shuffled, all unspanned", walking, unspanned);
    for count in [10, 100] {
        let few: Matches = &|random| some_matches(random, count);
        add(
            &format!("{count} matches anywhere, marks anywhere"),
            few,
            anywhere,
        );
        add(
            &format!("{count} matches anywhere, unspanned"),
            few,
            unspanned,
        );
    }
    for (name, matches, marks) in [
        (
            "separate, inside, no row to spare",
            shuffled,
            inside as Marks,
        ),
        ("one match 2047 times, no row to spare", copies, unspanned),
    ] {
        cases.push(case(&mut random, name, matches, marks, 0));
    }
    cases
}

/// A table of so many rows, or of as many as there are with marks.
fn case(random: &mut Random, name: &str, matches: Matches, mark: Marks, least: usize) -> Case {
    let pairs = (0..SCRIPTS).map(|_| {
        let matches = matches(random);
        let marks: Vec<DraftMark> = (0..MOST_MARKS).map(|_| mark(random, &matches)).collect();
        Pair {
            without: mixed(random, LONGEST, LONGEST, &matches, &[]),
            with: mixed(random, LONGEST, LONGEST, &matches, &marks),
        }
    });
    let pairs: Vec<Pair> = pairs.collect();
    let rows = pairs.iter().map(|pair| rows_of(&pair.with));
    Case {
        name: name.into(),
        capacity: rows.max().unwrap_or(0).max(least),
        pairs,
    }
}

/// Matches of 1,000 letters that share none and do not touch.
fn separate() -> Vec<DraftMatch> {
    let nth = |i| DraftMatch::direct(2_000 * i, 2_000 * i, 1_000);
    (0..MOST).map(nth).collect()
}

fn shuffled(random: &mut Random, mut matches: Vec<DraftMatch>) -> Vec<DraftMatch> {
    random.shuffle(&mut matches);
    matches
}

/// The least that 2,048 matches can be: all but the last are the same.
fn copies() -> Vec<DraftMatch> {
    let mut matches = vec![DraftMatch::direct(1_000, 1_000, 1_000); MOST_MATCHES - 1];
    matches.push(DraftMatch::direct(5_000, 5_000, 1_000));
    matches
}

fn lefts(m: &DraftMatch) -> [u32; 2] {
    [m.left_a, m.left_b]
}

fn spans(m: &DraftMatch, mark: DraftMark) -> bool {
    let left = lefts(m)[usize::from(mark.side)];
    left <= mark.position && mark.position <= left + m.length
}

fn anywhere(random: &mut Random, _: &[DraftMatch]) -> DraftMark {
    DraftMark {
        side: random.between(0, 1) as u8,
        position: random.between(0, LONGEST),
    }
}

/// Between matches, unless these leave no room there.
fn unspanned(random: &mut Random, matches: &[DraftMatch]) -> DraftMark {
    let furthest = |side: usize| matches.iter().map(move |m| lefts(m)[side] + m.length).max();
    let furthest = [0, 1].map(|side| furthest(side).unwrap_or(0));
    let between = |random: &mut Random| {
        let side = random.between(0, 1) as u8;
        DraftMark {
            side,
            position: random.between(0, furthest[usize::from(side)]),
        }
    };
    for _ in 0..64 {
        let mark = between(random);
        if !matches.iter().any(|m| spans(m, mark)) {
            return mark;
        }
    }
    DraftMark {
        side: 0,
        position: random.between((furthest[0] + 1).min(LONGEST), LONGEST),
    }
}

fn at_an_end(random: &mut Random, matches: &[DraftMatch]) -> DraftMark {
    let m = random.one_of(matches);
    let end = random.one_of(&[0, m.length]);
    mark_in(random, &m, end, end)
}

/// At no end of the match, if it has a letter more than one.
fn inside(random: &mut Random, matches: &[DraftMatch]) -> DraftMark {
    let m = random.one_of(matches);
    mark_in(random, &m, 1, (m.length - 1).max(1))
}

/// Which of all is looked at last.
fn in_the_last(random: &mut Random, matches: &[DraftMatch]) -> DraftMark {
    inside(random, &matches[matches.len() - 1..])
}

fn at_the_last_end(random: &mut Random, matches: &[DraftMatch]) -> DraftMark {
    at_an_end(random, &matches[matches.len() - 1..])
}

fn mark_in(random: &mut Random, m: &DraftMatch, least: u32, most: u32) -> DraftMark {
    let side = random.between(0, 1) as u8;
    DraftMark {
        side,
        position: lefts(m)[usize::from(side)] + random.between(least, most),
    }
}
