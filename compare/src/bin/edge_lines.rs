//! 01, "Small scripts at the edges": the slow program's answers to the lines that carry no M, in the form in which the
//! program `edge_lines` of the repository prints the proved library's. It calls none of the doors.

use compare::draft::Draft;
use compare::slow::carrying::{carry, Side};
use compare::slow::refusal::Refusal;
use compare::slow::script::read;
use compare::slow::table::refine;

fn main() {
    work_lines();
    touching_lines();
    lengths_lines();
    matches_lines();
}

/// "With 40 numbers of table, 32 of work pass and 31 give 11."
fn work_lines() {
    let run = Draft::lengths(10, 10).direct(0, 0, 6).reversed(2, 3, 5);
    let script = run.end();
    for work in [32, 31] {
        println!("work {work} {}", refining(&script, 40, work));
    }
}

/// "Lengths 8 8, direct 0 0 4, direct 4 4 4: 2 pieces; position 4 belongs to both."
fn touching_lines() {
    let touching = Draft::lengths(8, 8).direct(0, 0, 4).direct(4, 4, 4);
    let script = touching.end();
    println!("touching {}", refining(&script, 40, 32));
    for side in [Side::A, Side::B] {
        for number in [1, 2] {
            let carried = carry(&script, number, side, 4);
            let answer = answer(carried.map(|position| format!("to {position}")));
            println!("touching {number} {side:?} 4 {answer}");
        }
    }
}

/// "Lengths 1000000000 1, end: passes. Lengths 1000000001 1: 5 at 0."
fn lengths_lines() {
    for p in [1_000_000_000, 1_000_000_001] {
        let script = Draft::lengths(p, 1).end();
        println!("lengths {p} 1 {}", reading(&script));
    }
}

/// "2,048 matches pass the reader; one more gives 6 at 26633."
fn matches_lines() {
    for count in [2_048, 2_049] {
        let mut draft = Draft::lengths(1, 1);
        for _ in 0..count {
            draft = draft.direct(0, 0, 1);
        }
        println!("matches {count} {}", reading(&draft.end()));
    }
}

fn reading(script: &[u8]) -> String {
    answer(read(script).map(|_| "admitted".to_string()))
}

/// With so many numbers of table and of work.
fn refining(script: &[u8], table: usize, work: usize) -> String {
    let rows = refine(script, &mut vec![0; table], &mut vec![0; work]);
    answer(rows.map(|count| format!("rows {count}")))
}

/// What a success says, or the refusal with its number and place.
fn answer(outcome: Result<String, Refusal>) -> String {
    outcome.unwrap_or_else(|refusal| refusal.to_string())
}
