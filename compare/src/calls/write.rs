//! `notchergrey_write` beside the slow writer, and what it wrote read back.

use super::read;
use crate::door::{self, Reading, Writing};
use crate::groups;
use crate::list::List;
use crate::part::{lengths_around, same, same_all, Part};
use crate::random::Random;
use crate::slow::records;
use crate::slow::refusal::Refusal;
use crate::slow::script::{MOST_MARKS, MOST_MATCHES};
use crate::tally::{Need, Outcome, Tally};

const MARKS: &str = "marks written";

/// An input is a list with its marks.
pub const PART: Part<u32> = Part {
    name: "notchergrey_write",
    once: &[groups::LISTS_ONCE],
    each_round: &[groups::LISTS_EACH_ROUND],
    least: 70_000,
    compare,
    needs: &[
        &[
            Need::success(20_000, 100),
            Need::success_with(0),
            Need::success_with(MOST_MATCHES),
            Need::undone(20_000, 100),
            Need::refused(5, 5_000, 1),
            Need::refused(6, 400, 1),
            Need::refused(7, 5_000, 20),
            Need::refused(8, 5_000, 20),
            Need::refused(9, 5_000, 20),
            Need::refused(15, 5_000, 20),
            Need::refused(16, 20_000, 1),
            Need::refused(19, 150, 1),
            Need::refused(20, 3_000, 30),
            Need::refused(21, 3_000, 30),
            Need::kind(MARKS, 10_000, 100),
            Need::kind_with(MARKS, MOST_MARKS),
        ],
        FIRST_AND_LAST_PLACES,
    ],
};

/// A fault of the first record or mark and of the last that there can be, and 15 before any record.
const FIRST_AND_LAST_PLACES: &[Need] = &[
    Need::refused_at(7, 1),
    Need::refused_at(8, 1),
    Need::refused_at(9, 1),
    Need::refused_at(15, 0),
    Need::refused_at(15, 1),
    Need::refused_at(7, MOST_MATCHES),
    Need::refused_at(8, MOST_MATCHES),
    Need::refused_at(9, MOST_MATCHES),
    Need::refused_at(15, MOST_MATCHES),
    Need::refused_at(20, 1),
    Need::refused_at(21, 1),
    Need::refused_at(20, MOST_MATCHES + MOST_MARKS),
    Need::refused_at(21, MOST_MATCHES + MOST_MARKS),
];

fn compare(input: &[u32], random: &mut Random, tally: &mut Tally) -> Result<(), String> {
    let list = List::of_input(input);
    for room in lengths_around(list.script_length(), random) {
        compare_one(list, room, random, tally)
            .map_err(|what| format!("with {room} bytes for the script, {what}"))?;
    }
    Ok(())
}

/// Both programs are lent the same rubbish and must leave the same bytes.
fn compare_one(
    list: List,
    room: usize,
    random: &mut Random,
    tally: &mut Tally,
) -> Result<(), String> {
    let List {
        p,
        q,
        records,
        marks,
    } = list;
    let mut script = random.any_bytes(room);
    let mut lent = rubbish(random);
    let mut slow_script = script.clone();
    let slow = records::write(p, q, records, marks, &mut slow_script);
    let wanted = wanted(lent, slow);
    tally.met(slow.map(|_| list.count()));
    if slow.is_ok() && !marks.is_empty() {
        tally.met_outcome(Outcome::Kind(MARKS), list.mark_count());
    }

    let answer = door::write(p, q, records, marks, &mut script, &mut lent);
    same("the answer", Refusal::number_in(&slow), answer)?;
    same_numbers(wanted, lent)?;
    same_all("script", &slow_script, &script)?;
    slow.map_or(Ok(()), |length| {
        compare_undone(list, &script[..length], random, tally)
            .map_err(|what| format!("read back, {what}"))
    })
}

pub fn rubbish(random: &mut Random) -> Writing {
    Writing {
        place: random.any_usize(),
        length: random.any_usize(),
    }
}

pub fn same_numbers(wanted: Writing, got: Writing) -> Result<(), String> {
    same("place", wanted.place, got.place)?;
    same("length", wanted.length, got.length)
}

/// Success leaves the place as it was, and a refusal the length.
fn wanted(before: Writing, slow: Result<usize, Refusal>) -> Writing {
    match slow {
        Ok(length) => Writing { length, ..before },
        Err(refusal) => Writing {
            place: refusal.place,
            ..before
        },
    }
}

/// "records to bytes to records": the other door reads the very lists from the script written.
fn compare_undone(
    list: List,
    script: &[u8],
    random: &mut Random,
    tally: &mut Tally,
) -> Result<(), String> {
    let mut got = random.any_numbers(list.records.len());
    let mut got_marks = random.any_numbers(list.marks.len());
    let mut lent = read::rubbish(random);
    let wanted = Reading {
        p: list.p,
        q: list.q,
        count: list.count(),
        mark_count: list.mark_count(),
        ..lent
    };
    tally.met_outcome(Outcome::Undone, list.count());
    let answer = door::read_records(script, &mut got, &mut got_marks, &mut lent);
    same("the answer", 0, answer)?;
    read::same_numbers(wanted, lent)?;
    same_all("records", list.records, &got)?;
    same_all("marks", list.marks, &got_marks)
}
