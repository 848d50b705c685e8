//! The differential run: the same inputs to the slow program and to the proved one.
//!
//! Its last line is `compare: N calls, 0 differences` and its exit status 0 only if all answers
//! agreed and every outcome was met often enough, which is not asked of a number of rounds.

use compare::calls;
use compare::part::{Amount, Element, Part};
use std::env;
use std::process::ExitCode;

const USAGE: &str = "usage: compare [--seed N] [--times N | --rounds N]";

struct Options {
    seed: u64,
    amount: Amount,
}

fn main() -> ExitCode {
    let Some(options) = options(env::args().skip(1)) else {
        eprintln!("{USAGE}");
        return ExitCode::from(2);
    };
    match all_parts(&options) {
        Ok(calls) => {
            println!("compare: {calls} calls, 0 differences");
            ExitCode::SUCCESS
        }
        Err(failure) => {
            println!("{failure}");
            println!("compare: failed with seed {}", options.seed);
            ExitCode::FAILURE
        }
    }
}

/// The options among the words of the command line, or none if a word is not understood.
fn options(mut words: impl Iterator<Item = String>) -> Option<Options> {
    let mut options = Options {
        seed: 2002,
        amount: Amount::Times(1),
    };
    while let Some(word) = words.next() {
        let value = words.next()?;
        match word.as_str() {
            "--seed" => options.seed = value.parse().ok()?,
            "--times" => options.amount = Amount::Times(value.parse().ok()?),
            "--rounds" => options.amount = Amount::Rounds(value.parse().ok()?),
            _ => return None,
        }
    }
    Some(options)
}

/// The number of calls of all parts together.
fn all_parts(options: &Options) -> Result<usize, String> {
    let mut calls = 0;
    calls += one_part(&calls::read::PART, options)?;
    calls += one_part(&calls::one_match::PART, options)?;
    calls += one_part(&calls::one_match::PART_OF_ALL_MATCHES, options)?;
    calls += one_part(&calls::write::PART, options)?;
    calls += one_part(&calls::read_records::PART, options)?;
    calls += one_part(&calls::refine::PART, options)?;
    calls += one_part(&calls::refine::PART_OF_ALL_LENGTHS, options)?;
    calls += one_part(&calls::refine_long::PART, options)?;
    calls += one_part(&calls::chain::PART, options)?;
    calls += one_part(&calls::chain::PART_OF_ALL_LENGTHS, options)?;
    calls += one_part(&calls::carry::PART, options)?;
    calls += one_part(&calls::carry_all::PART, options)?;
    calls += one_part(&calls::carry_all::PART_OF_LONG_LISTS, options)?;
    calls += one_part(&calls::rows_of::PART, options)?;
    calls += one_part(&calls::summary::PART, options)?;
    calls += one_part(&calls::summary::PART_OF_OWN_TABLES, options)?;
    calls += one_part(&calls::report::PART, options)?;
    Ok(calls)
}

fn one_part<E: Element>(part: &Part<E>, options: &Options) -> Result<usize, String> {
    let tally = part
        .run(options.seed, options.amount)
        .map_err(|difference| difference.to_string())?;
    print!("{tally}");
    match (options.amount, tally.too_seldom()) {
        (Amount::Times(_), Some(outcome)) => {
            Err(format!("{outcome}, so this run shows too little"))
        }
        _ => Ok(tally.calls()),
    }
}
