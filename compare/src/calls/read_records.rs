//! `notchergrey_read_records` beside the slow program, and what it read written again.

use super::read::{self, ORDERS_OF_MARKS};
use super::write;
use crate::door::{self, Reading, Writing};
use crate::draft::{BYTES_OF_A_MARK, BYTES_OF_A_MATCH};
use crate::groups;
use crate::marks;
use crate::part::{lengths_around, same, same_all, Part};
use crate::random::Random;
use crate::slow::records::{self, NUMBERS_OF_A_MARK, NUMBERS_OF_A_RECORD};
use crate::slow::refusal::Refusal;
use crate::slow::script::{self, Script, MOST_MATCHES};
use crate::tally::{Need, Outcome, Tally, REFUSALS_OF_SCRIPTS};

const REORDERED: &str = "written again with the marks behind the matches";
const MARKS_TOO_SHORT: &str = "too short for the marks alone";
const RECORDS_TOO_SHORT: &str = "too short for the records alone, beside marks";

pub const PART: Part<u8> = Part {
    name: "notchergrey_read_records",
    once: &[groups::READING_ONCE],
    each_round: &[groups::READING_EACH_ROUND],
    least: 80_000,
    compare,
    needs: &[
        &[
            Need::success(20_000, 200),
            Need::success_with(0),
            Need::success_with(MOST_MATCHES),
            Need::undone(20_000, 200),
            Need::refused(16, 20_000, 1),
            Need::kind(REORDERED, 3_000, 50),
            Need::kind(MARKS_TOO_SHORT, 3_000, 50),
            Need::kind(RECORDS_TOO_SHORT, 3_000, 50),
        ],
        REFUSALS_OF_SCRIPTS,
        ORDERS_OF_MARKS,
    ],
};

/// How many numbers are lent.
#[derive(Clone, Copy, Debug, PartialEq, Eq)]
struct Rooms {
    records: usize,
    marks: usize,
}

fn compare(bytes: &[u8], random: &mut Random, tally: &mut Tally) -> Result<(), String> {
    let slow = script::read(bytes);
    let needed = needed(bytes, &slow);
    for rooms in rooms_around(needed, random) {
        if slow.is_ok() {
            count_too_short(needed, rooms, tally);
        }
        let Rooms { records, marks } = rooms;
        compare_one(bytes, rooms, random, tally).map_err(|what| {
            format!("with {records} numbers for the records and {marks} for the marks, {what}")
        })?;
    }
    if let Ok(script) = slow {
        marks::count_order(bytes, &script, tally);
    }
    Ok(())
}

/// Just the numbers of an admitted script, and of another as many as its bytes have room for: all that could be
/// written before its fault is met.
fn needed(bytes: &[u8], slow: &Result<Script, Refusal>) -> Rooms {
    let (matches, marks) = match slow {
        Ok(script) => (script.matches.len(), script.marks.len()),
        Err(_) => (
            bytes.len() / BYTES_OF_A_MATCH,
            bytes.len() / BYTES_OF_A_MARK,
        ),
    };
    Rooms {
        records: matches * NUMBERS_OF_A_RECORD,
        marks: marks * NUMBERS_OF_A_MARK,
    }
}

/// Each buffer just enough and one less, alone and together, and both of any lengths.
fn rooms_around(needed: Rooms, random: &mut Random) -> Vec<Rooms> {
    let Rooms { records, marks } = needed;
    let (one_less, one_mark_less) = (records.saturating_sub(1), marks.saturating_sub(1));
    let mut any_records = lengths_around(records, random);
    let any_marks = lengths_around(marks, random);
    random.shuffle(&mut any_records);
    let mut rooms = vec![
        needed,
        Rooms {
            records: one_less,
            ..needed
        },
        Rooms {
            marks: one_mark_less,
            ..needed
        },
    ];
    rooms.extend(
        any_records
            .into_iter()
            .zip(any_marks)
            .map(|(records, marks)| Rooms { records, marks }),
    );
    rooms.dedup();
    rooms
}

/// Both programs are lent the same rubbish and must leave the same numbers.
fn compare_one(
    bytes: &[u8],
    rooms: Rooms,
    random: &mut Random,
    tally: &mut Tally,
) -> Result<(), String> {
    let mut records = random.any_numbers(rooms.records);
    let mut marks = random.any_numbers(rooms.marks);
    let mut lent = read::rubbish(random);
    let (mut slow_records, mut slow_marks) = (records.clone(), marks.clone());
    let slow = records::read_records(bytes, &mut slow_records, &mut slow_marks);
    let wanted = read::wanted(lent, &slow);
    let count = slow.as_ref().map(|script| script.matches.len());
    tally.met(count.map_err(|&refusal| refusal));

    let answer = door::read_records(bytes, &mut records, &mut marks, &mut lent);
    same("the answer", Refusal::number_in(&slow), answer)?;
    read::same_numbers(wanted, lent)?;
    same_all("records", &slow_records, &records)?;
    same_all("marks", &slow_marks, &marks)?;
    slow.map_or(Ok(()), |_| {
        compare_undone(bytes, lent, &records, &marks, random, tally)
            .map_err(|what| format!("written again, {what}"))
    })
}

/// One of the buffers is too short, and the other is not.
fn count_too_short(needed: Rooms, rooms: Rooms, tally: &mut Tally) {
    let short = [rooms.records < needed.records, rooms.marks < needed.marks];
    let kind = match short {
        [true, false] if needed.marks > 0 => RECORDS_TOO_SHORT,
        [false, true] => MARKS_TOO_SHORT,
        _ => return,
    };
    tally.met_outcome(Outcome::Kind(kind), needed.marks);
}

/// "bytes to records to bytes": the other door writes the very script of what was read if its matches come
/// first, and else the same commands in that order.
fn compare_undone(
    bytes: &[u8],
    read: Reading,
    records: &[u32],
    marks: &[u32],
    random: &mut Random,
    tally: &mut Tally,
) -> Result<(), String> {
    let records = &records[..read.count * NUMBERS_OF_A_RECORD];
    let marks = &marks[..read.mark_count * NUMBERS_OF_A_MARK];
    let mut got = random.any_bytes(bytes.len());
    let mut lent = write::rubbish(random);
    let wanted = Writing {
        length: bytes.len(),
        ..lent
    };
    let answer = door::write(read.p, read.q, records, marks, &mut got, &mut lent);
    same("the answer", 0, answer)?;
    write::same_numbers(wanted, lent)?;
    if marks::matches_come_first(bytes) {
        tally.met_outcome(Outcome::Undone, read.count);
        return same_all("script", bytes, &got);
    }
    tally.met_outcome(Outcome::Kind(REORDERED), read.mark_count);
    same_all("script", &marks::with_matches_first(bytes), &got)
}
