//! The proved summary beside plain Rust, on ordinary tables and on tables of a pattern.

mod cases;
mod plain;

use crate::timing::Timing;
use cases::Length;
use compare::door::{self, Summary};
use std::hint::black_box;

pub fn run() {
    println!();
    println!(
        "{:<20} {:>9} {:>12} {:>12} {:>6} {:>6} {:>11}",
        "summary", "rows", "Rattle us", "Rust us", "covers", "ratio", "to ordinary"
    );
    for length in cases::all() {
        report(&length);
    }
    println!("Rattle: notchergrey_summary, which works in arrays of its own.");
    println!("Rust: copies of the pieces, sorted, and of the stretches of each side, sorted.");
    println!("covers: the part of Rust's time that the stretches take, by a call that counts covers alone.");
    println!("to ordinary: Rattle's time, over its time for the first table of that length, with which it takes turns.");
}

fn report(length: &Length) {
    let ordinary = &length.tables[0].1;
    for (name, table) in &length.tables {
        check(name, table);
        let timing = Timing {
            calls: (100_000 / length.rows).max(1),
            inputs: &[()],
        };
        let [rattle, rust, covers, first] = timing.medians([
            &mut |_| sum_up(table),
            &mut |_| {
                black_box(plain::sum_up(black_box(table)));
            },
            &mut |_| {
                black_box(plain::covers(black_box(table)));
            },
            &mut |_| sum_up(ordinary),
        ]);
        println!(
            "{:<20} {:>9} {:>12.1} {:>12.1} {:>6.2} {:>6.2} {:>11.2}",
            name,
            table.len() / 5,
            rattle / 1e3,
            rust / 1e3,
            covers / rust,
            rattle / rust,
            rattle / first
        );
    }
}

fn sum_up(table: &[u32]) {
    let mut lent = NOTHING;
    black_box(door::summary(black_box(table), &mut lent));
}

const NOTHING: Summary = Summary {
    pieces: 0,
    distinct: 0,
    covers: [0; 2],
    classes: [0; 30],
};

/// Summaries that disagree are not worth timing.
fn check(name: &str, table: &[u32]) {
    let mut lent = NOTHING;
    assert_eq!(door::summary(table, &mut lent), 0, "{name}");
    let wanted = plain::sum_up(table);
    let of = |s: &Summary| (s.pieces, s.distinct, s.covers, s.classes);
    assert_eq!(of(&lent), of(&wanted), "{name}");
}
