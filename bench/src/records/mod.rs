//! The proved writing and reading back of lists beside plain Rust.

mod cases;
mod plain;

use crate::reader::cases::Case;
use crate::reader::{numbers_of, NO_NUMBERS};
use crate::timing::Timing;
use cases::List;
use compare::door::{self, Reading, Writing};
use compare::slow::refusal::{Refusal, Word};
use compare::slow::script::{self, MOST_MARKS, MOST_MATCHES};
use plain::script_bytes;
use std::hint::black_box;

/// Room for every script, and for every list.
const MOST_BYTES: usize = script_bytes(MOST_MATCHES, MOST_MARKS);
const MOST_NUMBERS: usize = 4 * MOST_MATCHES;
const MOST_NUMBERS_OF_MARKS: usize = 2 * MOST_MARKS;

pub fn run() {
    println!(
        "\n{:<36} {:>10} {:>10} {:>6} {:>10} {:>10} {:>6}",
        "writing and reading lists", "write ns", "Rust ns", "ratio", "read ns", "Rust ns", "ratio"
    );
    for case in cases::all() {
        check(&case);
        report(&case);
    }
    println!("write: notchergrey_write. read: notchergrey_read_records.");
    println!("Rust: plain Rust that judges in one pass and fills the lent buffers in another.");
}

fn report(case: &Case<List>) {
    let timing = Timing {
        calls: case.calls,
        inputs: &case.inputs,
    };
    let mut script = vec![0; MOST_BYTES];
    let mut script_of_plain = script.clone();
    let mut records = vec![0; MOST_NUMBERS];
    let mut records_of_plain = records.clone();
    let mut marks = vec![0; MOST_NUMBERS_OF_MARKS];
    let mut marks_of_plain = marks.clone();
    let mut written = NOT_WRITTEN;
    let mut numbers = NO_NUMBERS;
    let [rattle_write, plain_write, rattle_read, plain_read] = timing.medians([
        &mut |list| {
            let List { p, q, records, .. } = list;
            let answer = door::write(*p, *q, records, &list.marks, &mut script, &mut written);
            black_box(answer);
        },
        &mut |list| {
            let List { p, q, records, .. } = list;
            _ = black_box(plain::write(
                *p,
                *q,
                records,
                &list.marks,
                &mut script_of_plain,
            ));
        },
        &mut |list| {
            let answer = door::read_records(&list.script, &mut records, &mut marks, &mut numbers);
            black_box(answer);
        },
        &mut |list| {
            _ = black_box(plain::read(
                &list.script,
                &mut records_of_plain,
                &mut marks_of_plain,
            ));
        },
    ]);
    println!(
        "{:<36} {:>10.1} {:>10.1} {:>6.2} {:>10.1} {:>10.1} {:>6.2}",
        case.name,
        rattle_write,
        plain_write,
        rattle_write / plain_write,
        rattle_read,
        plain_read,
        rattle_read / plain_read
    );
}

const NOT_WRITTEN: Writing = Writing {
    place: 0,
    length: 0,
};

/// Writers and readers that disagree are not worth timing. Each is lent a buffer that is too short
/// by one, one that is just long enough, and the one that is timed, with rubbish in them.
fn check(case: &Case<List>) {
    for list in &case.inputs {
        let bytes = list.script.len();
        for room in [bytes - 1, bytes, MOST_BYTES] {
            check_writing(&case.name, list, room);
        }
        let (numbers, of_marks) = (list.records.len(), list.marks.len());
        for rooms in [
            (numbers.saturating_sub(1), of_marks),
            (numbers, of_marks.saturating_sub(1)),
            (numbers, of_marks),
            (MOST_NUMBERS, MOST_NUMBERS_OF_MARKS),
        ] {
            check_reading(&case.name, list, rooms);
        }
    }
}

fn check_writing(name: &str, list: &List, room: usize) {
    let List {
        p,
        q,
        records,
        marks,
        ..
    } = list;
    let (&p, &q) = (p, q);
    let mut script = vec![7; room];
    let mut script_of_plain = script.clone();
    let mut written = NOT_WRITTEN;
    let answer = door::write(p, q, records, marks, &mut script, &mut written);
    let (plain_answer, wanted) = match plain::write(p, q, records, marks, &mut script_of_plain) {
        Ok(length) => (0, Writing { place: 0, length }),
        Err(refusal) => {
            let place = refusal.place;
            (refusal.number(), Writing { place, length: 0 })
        }
    };
    assert_eq!((answer, written), (plain_answer, wanted), "{name}");
    assert!(script == script_of_plain, "{name}: two scripts");
    let fits = room >= list.script.len();
    assert_eq!(answer, wanted_answer(list, fits), "{name}");
    if answer == 0 {
        assert!(script.starts_with(&list.script), "{name}: not the script");
    }
}

fn check_reading(name: &str, list: &List, (room, room_of_marks): (usize, usize)) {
    let mut records = vec![7; room];
    let mut marks = vec![7; room_of_marks];
    let mut records_of_plain = records.clone();
    let mut marks_of_plain = marks.clone();
    let mut numbers = NO_NUMBERS;
    let answer = door::read_records(&list.script, &mut records, &mut marks, &mut numbers);
    let read = plain::read(&list.script, &mut records_of_plain, &mut marks_of_plain);
    let (plain_answer, wanted) = match read {
        Ok(admitted) => (0, numbers_of(admitted)),
        Err(refusal) => (
            refusal.number(),
            Reading {
                place: refusal.place,
                ..NO_NUMBERS
            },
        ),
    };
    assert_eq!((answer, numbers), (plain_answer, wanted), "{name}");
    assert!(records == records_of_plain, "{name}: two lists");
    assert!(marks == marks_of_plain, "{name}: two lists of marks");
    let fits = room >= list.records.len() && room_of_marks >= list.marks.len();
    assert_eq!(answer, wanted_answer(list, fits), "{name}");
    if answer == 0 {
        assert!(records.starts_with(&list.records), "{name}: not the list");
        assert!(marks.starts_with(&list.marks), "{name}: not the marks");
    }
}

/// A list is refused for what the slow reader refuses its script for, and else for its buffer.
fn wanted_answer(list: &List, fits: bool) -> u32 {
    match Refusal::number_in(&script::read(&list.script)) {
        0 if !fits => Word::BufferTooShort as u32,
        number => number,
    }
}
