//! The proved reader beside plain Rust.

pub mod cases;
pub mod plain;

use crate::timing::Timing;
use cases::Case;
use compare::door::{self, Carrying, OneMatch, Reading};
use compare::slow::carrying::Side;
use compare::slow::script;
use plain::{Admitted, Columns};
use std::hint::black_box;

pub fn run() {
    let cases = cases::all();
    println!(
        "{:<36} {:>10} {:>10} {:>6} {:>12} {:>6}",
        "reading", "Rattle ns", "Rust ns", "ratio", "lent ns", "ratio"
    );
    for case in &cases {
        check(case);
        report_reading(case);
    }
    println!("Rattle: notchergrey_read. Rust: plain Rust in one pass that keeps nothing.");
    println!("lent: plain Rust in one pass into arrays of its caller, which is more to do.");
    println!(
        "\n{:<36} {:>10} {:>10} {:>6} {:>10} {:>10} {:>6}",
        "one match", "match ns", "Rust ns", "ratio", "carry ns", "Rust ns", "ratio"
    );
    for case in &cases {
        check_one(case);
        report_one(case);
    }
    println!("The last match of the script, and its left end on A carried to B.");
    println!("Rust: plain Rust in one pass that keeps the match of the number.");
}

fn report_reading(case: &Case<Vec<u8>>) {
    let mut numbers = NO_NUMBERS;
    let mut lent = Box::new(Columns::ZEROS);
    let timing = Timing {
        calls: case.calls,
        inputs: &case.inputs,
    };
    let [rattle, plain, lent] = timing.medians([
        &mut |script| {
            black_box(door::read(script, &mut numbers));
        },
        &mut |script| {
            _ = black_box(plain::judge(script));
        },
        &mut |script| {
            _ = black_box(plain::read(script, &mut lent));
        },
    ]);
    println!(
        "{:<36} {:>10.1} {:>10.1} {:>6.2} {:>12.1} {:>6.2}",
        case.name,
        rattle,
        plain,
        rattle / plain,
        lent,
        rattle / lent
    );
}

fn report_one(case: &Case<Vec<u8>>) {
    let number = case.matches as u32;
    let with_left_end = |script: &Vec<u8>| (script.clone(), left_end(script, number));
    let inputs: Vec<(Vec<u8>, u32)> = case.inputs.iter().map(with_left_end).collect();
    let timing = Timing {
        calls: case.calls,
        inputs: &inputs,
    };
    let mut found = NO_MATCH;
    let mut carried = NOT_CARRIED;
    let [rattle, plain, rattle_carry, plain_carry] = timing.medians([
        &mut |(script, _)| {
            black_box(door::one_match(script, number, &mut found));
        },
        &mut |(script, _)| {
            _ = black_box(plain::find(script, number));
        },
        &mut |(script, left_end)| {
            black_box(door::carry(
                script,
                number,
                Side::A,
                *left_end,
                &mut carried,
            ));
        },
        &mut |(script, left_end)| {
            _ = black_box(plain::carry_from_a(script, number, *left_end));
        },
    ]);
    println!(
        "{:<36} {:>10.1} {:>10.1} {:>6.2} {:>10.1} {:>10.1} {:>6.2}",
        case.name,
        rattle,
        plain,
        rattle / plain,
        rattle_carry,
        plain_carry,
        rattle_carry / plain_carry
    );
}

/// The left end on A of the match of this number; 0 if there is none.
fn left_end(script: &[u8], number: u32) -> u32 {
    plain::find(script, number).map_or(0, |found| found.left_a)
}

const NO_MATCH: OneMatch = OneMatch {
    place: 0,
    left_a: 0,
    left_b: 0,
    length: 0,
    reversed: 0,
};

const NOT_CARRIED: Carrying = Carrying {
    place: 0,
    carried: 0,
};

pub const NO_NUMBERS: Reading = Reading {
    place: 0,
    p: 0,
    q: 0,
    count: 0,
    mark_count: 0,
};

/// What the doors write for an admitted script.
pub fn numbers_of(admitted: Admitted) -> Reading {
    Reading {
        place: 0,
        p: admitted.p,
        q: admitted.q,
        count: admitted.count,
        mark_count: admitted.mark_count,
    }
}

/// Readers that disagree are not worth timing.
fn check(case: &Case<Vec<u8>>) {
    for script in &case.inputs {
        let mut numbers = NO_NUMBERS;
        let number = door::read(script, &mut numbers);
        let (wanted_number, wanted) = match plain::judge(script) {
            Ok(admitted) => (0, numbers_of(admitted)),
            Err(refusal) => {
                let place = refusal.place;
                (
                    refusal.number(),
                    Reading {
                        place,
                        ..NO_NUMBERS
                    },
                )
            }
        };
        assert_eq!((number, numbers), (wanted_number, wanted), "{}", case.name);
        check_matches(case, script);
    }
}

/// What is found and carried, the same of both.
fn check_one(case: &Case<Vec<u8>>) {
    let number = case.matches as u32;
    for script in &case.inputs {
        let mut found = NO_MATCH;
        let answer = door::one_match(script, number, &mut found);
        let mut carried = NOT_CARRIED;
        let left_end = left_end(script, number);
        let carry_answer = door::carry(script, number, Side::A, left_end, &mut carried);
        match plain::find(script, number) {
            Ok(m) => {
                assert_eq!(answer, 0, "{}", case.name);
                let got = [found.left_a, found.left_b, found.length, found.reversed];
                let wanted = [m.left_a, m.left_b, m.length, u32::from(m.reversed)];
                assert_eq!(got, wanted, "{}", case.name);
            }
            Err(refusal) => assert_eq!(
                (answer, found.place),
                (refusal.number(), refusal.place),
                "{}",
                case.name
            ),
        }
        match plain::carry_from_a(script, number, left_end) {
            Ok(to) => assert_eq!((carry_answer, carried.carried), (0, to), "{}", case.name),
            Err(refusal) => assert_eq!(
                (carry_answer, carried.place),
                (refusal.number(), refusal.place),
                "{}",
                case.name
            ),
        }
    }
}

/// The plain reader's columns against the slow program's matches and marks.
fn check_matches(case: &Case<Vec<u8>>, bytes: &[u8]) {
    let Ok(slow) = script::read(bytes) else {
        return;
    };
    let mut columns = Box::new(Columns::ZEROS);
    let admitted = plain::read(bytes, &mut columns).expect("an admitted script");
    assert_eq!(admitted.count, slow.matches.len(), "{}", case.name);
    for (i, m) in slow.matches.iter().enumerate() {
        let got = [columns.left_a[i], columns.left_b[i], columns.length[i]];
        let wanted = [m.left_a, m.left_b, m.length];
        assert_eq!(got.map(u64::from), wanted, "{}", case.name);
        assert_eq!(columns.reversed[i], m.reversed, "{}", case.name);
    }
    assert_eq!(admitted.mark_count, slow.marks.len(), "{}", case.name);
    for (i, mark) in slow.marks.iter().enumerate() {
        let side = if columns.side[i] == 0 {
            Side::A
        } else {
            Side::B
        };
        assert_eq!(side, mark.side, "{}", case.name);
        assert_eq!(
            u64::from(columns.position[i]),
            mark.position,
            "{}",
            case.name
        );
    }
}
