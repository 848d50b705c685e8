//! `notchergrey_chain` beside the slow program.

use crate::door::{self, Chaining};
use crate::groups;
use crate::part::{same, same_all, Part};
use crate::random::Random;
use crate::slow::chaining::{self, backbone, Buffers, Chained, MOST_PRICE};
use crate::slow::refinement;
use crate::slow::refusal::Refusal;
use crate::slow::report::ROWS;
use crate::slow::script;
use crate::slow::table::{NUMBERS_OF_A_ROW, WORK_OF_A_ROW};
use crate::tally::{Need, Outcome, Tally, REFUSALS_OF_SCRIPTS};

const EQUAL_CHAINS: &str = "other chains score as much";
const LINK_OF_ZERO: &str = "the chain could go on by a link of exactly 0";
const FALLING_NUMBERS: &str = "row numbers that fall along the chain";
const SKIPPING: &str = "a chain that skips letters at a price";
const MANY_DIRECT: &str = "too many direct pieces to go through all chains";
const NO_DIRECT: &str = "no direct piece";
const BY_MARKS: &str = "another chain than without the marks";

pub const PART: Part<u8> = Part {
    name: "notchergrey_chain",
    once: &[
        groups::EDGES,
        groups::CHAINS_ONCE,
        groups::LARGE,
        groups::LARGE_WITH_MARKS,
    ],
    each_round: &[
        groups::CHAINS,
        groups::CHAINS,
        groups::CHAINS_WITH_MARKS,
        groups::SHAPES,
        groups::FAULTS,
    ],
    least: 60_000,
    compare: compare_around_the_rows,
    needs: &[
        &[
            Need::success(40_000, 20),
            Need::success_with(0),
            Need::refused(11, 10_000, 1),
            Need::refused(12, 10_000, 1),
            Need::refused(17, 10_000, 1),
            Need::refused(18, 10_000, 1),
            Need::kind(EQUAL_CHAINS, 10_000, 5),
            Need::kind(LINK_OF_ZERO, 3_000, 3),
            Need::kind(FALLING_NUMBERS, 5_000, 4),
            Need::kind(SKIPPING, 3_000, 3),
            Need::kind(MANY_DIRECT, 500, 20),
            Need::kind(NO_DIRECT, 500, 1),
            Need::kind(BY_MARKS, 3_000, 5),
        ],
        REFUSALS_OF_SCRIPTS,
    ],
};

pub const PART_OF_ALL_LENGTHS: Part<u8> = Part {
    name: "notchergrey_chain, buffers of every small length",
    once: &[groups::CHAINS_OF_FEW_ROWS],
    each_round: &[],
    least: 0,
    compare: compare_all_lengths,
    needs: &[&[
        Need::success(500, 3),
        Need::refused(11, 1_000, 1),
        Need::refused(12, 1_000, 1),
        Need::refused(17, 500, 1),
        Need::refused(18, 1_000, 1),
    ]],
};

/// The gap price, and how many numbers are lent.
#[derive(Clone, Copy, Debug)]
struct Call {
    price: u32,
    table: usize,
    work: usize,
    chain: usize,
    scores: usize,
}

impl Call {
    /// Just enough for so many rows.
    fn for_rows(rows: usize, price: u32) -> Call {
        Call {
            price,
            table: rows * NUMBERS_OF_A_ROW,
            work: rows * WORK_OF_A_ROW,
            chain: rows,
            scores: rows,
        }
    }
}

fn compare_around_the_rows(
    bytes: &[u8],
    random: &mut Random,
    tally: &mut Tally,
) -> Result<(), String> {
    for call in calls_around_the_rows(bytes, random) {
        compare_one(bytes, call, random, tally)?;
    }
    Ok(())
}

fn compare_all_lengths(bytes: &[u8], random: &mut Random, tally: &mut Tally) -> Result<(), String> {
    for table in 0..=16 {
        for work in 0..=13 {
            for chain in 0..=4 {
                for scores in 0..=4 {
                    let price = any_price(random);
                    let call = Call {
                        price,
                        table,
                        work,
                        chain,
                        scores,
                    };
                    compare_one(bytes, call, random, tally)?;
                }
            }
        }
    }
    Ok(())
}

/// Admitted ones, and now and then one that is too high.
fn any_price(random: &mut Random) -> u32 {
    let any = random.between(0, MOST_PRICE);
    let high = random.between(MOST_PRICE + 1, u32::MAX);
    random.one_of(&[
        0,
        0,
        1,
        1,
        1,
        2,
        3,
        5,
        any,
        MOST_PRICE,
        MOST_PRICE + 1,
        high,
    ])
}

fn calls_around_the_rows(bytes: &[u8], random: &mut Random) -> Vec<Call> {
    let Ok(script) = script::read(bytes) else {
        return vec![any_call(random, 8), any_call(random, 8)];
    };
    let Some(pieces) = refinement::least(&script.matches, &script.marks, ROWS) else {
        return vec![Call::for_rows(ROWS, 1), any_call(random, 8)];
    };
    const MANY: usize = 100;
    let rows = pieces.len();
    let any = random.between(4, 99);
    let some = random.one_of(&[2, 3, any]);
    let enough = [0, 1, some, MOST_PRICE].map(|price| Call::for_rows(rows, price));
    if rows >= MANY {
        return enough[..2].to_vec();
    }
    let others = [
        one_row_less(random, rows),
        one_number_less(random, rows),
        more_than_enough(random, rows),
        any_call(random, rows),
        any_call(random, rows),
    ];
    [&enough[..], &others].concat()
}

/// Room for one row less in the table, and all else as for it.
fn one_row_less(random: &mut Random, rows: usize) -> Call {
    let few = Call::for_rows(rows.saturating_sub(1), any_price(random));
    Call {
        table: few.table + random.count_between(0, NUMBERS_OF_A_ROW - 1),
        ..few
    }
}

/// One number less in one of the buffers, or in several.
fn one_number_less(random: &mut Random, rows: usize) -> Call {
    let mut call = Call::for_rows(rows, any_price(random));
    for buffer in [&mut call.work, &mut call.chain, &mut call.scores] {
        *buffer = buffer.saturating_sub(random.count_between(0, 1));
    }
    call
}

fn more_than_enough(random: &mut Random, rows: usize) -> Call {
    let call = Call::for_rows(rows + random.count_between(0, 3), any_price(random));
    Call {
        price: call.price,
        table: call.table + random.count_between(0, NUMBERS_OF_A_ROW - 1),
        work: call.work + random.count_between(0, 20),
        chain: call.chain + random.count_between(0, 5),
        scores: call.scores + random.count_between(0, 5),
    }
}

fn any_call(random: &mut Random, rows: usize) -> Call {
    let most = Call::for_rows(rows + 2, any_price(random));
    Call {
        price: most.price,
        table: random.count_between(0, most.table),
        work: random.count_between(0, most.work),
        chain: random.count_between(0, most.chain),
        scores: random.count_between(0, most.scores),
    }
}

/// Both programs are lent the same rubbish and must leave the same numbers.
fn compare_one(
    bytes: &[u8],
    call: Call,
    random: &mut Random,
    tally: &mut Tally,
) -> Result<(), String> {
    let mut table = random.any_numbers(call.table);
    let mut work = random.any_numbers(call.work);
    let mut chain = random.any_numbers(call.chain);
    let mut scores = random.any_numbers(call.scores);
    let mut lent = Chaining {
        place: random.any_usize(),
        score: random.any_u64(),
        rows: random.any_usize(),
        length: random.any_usize(),
    };
    let (mut slow_table, mut slow_work) = (table.clone(), work.clone());
    let (mut slow_chain, mut slow_scores) = (chain.clone(), scores.clone());
    let slow = chaining::chain(
        bytes,
        call.price,
        Buffers {
            table: &mut slow_table,
            work: &mut slow_work,
            chain: &mut slow_chain,
            scores: &mut slow_scores,
        },
    );
    let wanted = wanted(lent, &slow);
    count(bytes, call.price, &slow, tally);

    let answer = door::chain(
        bytes,
        call.price,
        &mut table,
        &mut work,
        &mut chain,
        &mut scores,
        &mut lent,
    );
    same("the answer", Refusal::number_in(&slow), answer)
        .and_then(|()| same("place", wanted.place, lent.place))
        .and_then(|()| same("score", wanted.score, lent.score))
        .and_then(|()| same("rows", wanted.rows, lent.rows))
        .and_then(|()| same("length", wanted.length, lent.length))
        .and_then(|()| same_all("table", &slow_table, &table))
        .and_then(|()| same_all("work", &slow_work, &work))
        .and_then(|()| same_all("chain", &slow_chain, &chain))
        .and_then(|()| same_all("scores", &slow_scores, &scores))
        .map_err(|what| format!("with {call:?}, {what}"))
}

/// Success leaves the place as it was, and a refusal the rest.
fn wanted(before: Chaining, slow: &Result<Chained, Refusal>) -> Chaining {
    match slow {
        Ok(chained) => Chaining {
            score: chained.score,
            rows: chained.rows,
            length: chained.chain.len(),
            ..before
        },
        Err(refusal) => Chaining {
            place: refusal.place,
            ..before
        },
    }
}

/// The answer, and of a success the kinds of its chain.
fn count(bytes: &[u8], price: u32, slow: &Result<Chained, Refusal>, tally: &mut Tally) {
    let length = slow.as_ref().map(|chained| chained.chain.len());
    tally.met(length.map_err(|refusal| *refusal));
    let (Ok(chained), Ok(script)) = (slow, script::read(bytes)) else {
        return;
    };
    let least = |marks| refinement::least(&script.matches, marks, chained.rows);
    let pieces = least(&script.marks).expect("the rows fit");
    let found = backbone(&pieces, price);
    let without_marks = || backbone(&least(&[]).expect("no more rows"), price);
    let piece = |number: &u32| &pieces[*number as usize - 1];
    let skips = |pair: &[u32]| {
        let (left, right) = (piece(&pair[0]), piece(&pair[1]));
        left.left_a + left.length < right.left_a || left.left_b + left.length < right.left_b
    };
    let mut pairs = found.chain.windows(2);
    let kinds = [
        (EQUAL_CHAINS, found.equals.is_some_and(|equals| equals > 1)),
        (LINK_OF_ZERO, found.goes_on),
        (
            FALLING_NUMBERS,
            found.chain.windows(2).any(|pair| pair[1] < pair[0]),
        ),
        (SKIPPING, price > 0 && pairs.any(skips)),
        (MANY_DIRECT, found.equals.is_none()),
        (NO_DIRECT, found.chain.is_empty()),
        (
            BY_MARKS,
            !script.marks.is_empty() && without_marks().chain != found.chain,
        ),
    ];
    for (kind, _) in kinds.into_iter().filter(|(_, is)| *is) {
        tally.met_outcome(Outcome::Kind(kind), found.chain.len());
    }
}
