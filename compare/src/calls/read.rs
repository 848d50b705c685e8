//! `notchergrey_read` beside the slow reader.

use crate::door::{self, Reading};
use crate::groups;
use crate::marks;
use crate::part::{same, Part};
use crate::random::Random;
use crate::slow::refusal::Refusal;
use crate::slow::script::{self, Script, MOST_MARKS};
use crate::tally::{Need, Outcome, Tally, REFUSALS_OF_SCRIPTS};

pub const PART: Part<u8> = Part {
    name: "notchergrey_read",
    once: &[groups::READING_ONCE],
    each_round: &[groups::READING_EACH_ROUND],
    least: 140_000,
    compare,
    needs: &[
        &[Need::success(10_000, 200)],
        REFUSALS_OF_SCRIPTS,
        ORDERS_OF_MARKS,
        FAULTS_OF_MARKS,
    ],
};

/// With many different counts of marks, and with as many as there can be.
pub const ORDERS_OF_MARKS: &[Need] = &[
    Need::kind(marks::NO_MATCH, 100, 10),
    Need::kind(marks::FIRST, 1_000, 50),
    Need::kind(marks::BETWEEN, 1_000, 50),
    Need::kind(marks::BEHIND, 500, 10),
    Need::kind_with(marks::NO_MATCH, MOST_MARKS - 1),
    Need::kind_with(marks::NO_MATCH, MOST_MARKS),
    Need::kind_with(marks::BETWEEN, MOST_MARKS),
];

/// At many places.
const FAULTS_OF_MARKS: &[Need] = &[
    Need::kind(marks::CUT_SHORT, 1_000, 50),
    Need::kind(marks::NO_SIDE_AND_BEYOND, 500, 50),
    Need::kind(marks::TOO_MANY_AND_CUT_SHORT, 30, 5),
    Need::kind(marks::TOO_MANY_AND_NO_SIDE, 5, 5),
    Need::kind(marks::TOO_MANY_AND_BEYOND, 5, 5),
];

fn compare(bytes: &[u8], random: &mut Random, tally: &mut Tally) -> Result<(), String> {
    let before = rubbish(random);
    let mut after = before;
    let number = door::read(bytes, &mut after);
    let slow = script::read(bytes);
    let wanted = wanted(before, &slow);
    let count = slow.as_ref().map(|script| script.matches.len());
    tally.met(count.map_err(|&refusal| refusal));
    count_marks(bytes, &slow, tally);
    same("the answer", Refusal::number_in(&slow), number)?;
    same_numbers(wanted, after)
}

fn count_marks(bytes: &[u8], slow: &Result<Script, Refusal>, tally: &mut Tally) {
    match slow {
        Ok(script) => marks::count_order(bytes, script, tally),
        Err(refusal) => {
            if let Some(kind) = marks::fault(bytes, *refusal) {
                tally.met_outcome(Outcome::Kind(kind), refusal.place);
            }
        }
    }
}

pub fn same_numbers(wanted: Reading, got: Reading) -> Result<(), String> {
    same("place", wanted.place, got.place)?;
    same("p", wanted.p, got.p)?;
    same("q", wanted.q, got.q)?;
    same("count", wanted.count, got.count)?;
    same("mark_count", wanted.mark_count, got.mark_count)
}

pub fn rubbish(random: &mut Random) -> Reading {
    Reading {
        place: random.any_usize(),
        p: random.any_u32(),
        q: random.any_u32(),
        count: random.any_usize(),
        mark_count: random.any_usize(),
    }
}

/// Success leaves the place as it was, and a refusal every other number.
pub fn wanted(before: Reading, slow: &Result<Script, Refusal>) -> Reading {
    match slow {
        Ok(script) => Reading {
            place: before.place,
            p: script.p as u32,
            q: script.q as u32,
            count: script.matches.len(),
            mark_count: script.marks.len(),
        },
        Err(refusal) => Reading {
            place: refusal.place,
            ..before
        },
    }
}
