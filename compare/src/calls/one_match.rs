//! `notchergrey_match` beside the slow program.

use super::read::ORDERS_OF_MARKS;
use crate::door::{self, OneMatch};
use crate::groups;
use crate::marks;
use crate::part::{same, Part};
use crate::random::Random;
use crate::slow::refusal::Refusal;
use crate::slow::script::{self, Match, Script};
use crate::tally::{Need, Tally, REFUSALS_OF_SCRIPTS};

/// The scripts of the reader, and of those with more than `FEW` matches only some matches: the door
/// reads the whole script for each.
pub const PART: Part<u8> = Part {
    name: "notchergrey_match",
    once: &[groups::READING_ONCE],
    each_round: &[groups::READING_EACH_ROUND],
    least: 140_000,
    compare: compare_some,
    needs: &[
        &[Need::success(100_000, 1_000), Need::refused(13, 10_000, 1)],
        REFUSALS_OF_SCRIPTS,
        ORDERS_OF_MARKS,
    ],
};

/// A few of the longest scripts, and every match of them.
pub const PART_OF_ALL_MATCHES: Part<u8> = Part {
    name: "notchergrey_match, every number of long scripts",
    once: &[groups::LONGEST],
    each_round: &[],
    least: 0,
    compare: compare_all,
    needs: &[&[Need::success(12_000, 2_048), Need::refused(13, 10, 1)]],
};

const FEW: usize = 200;

fn compare_some(bytes: &[u8], random: &mut Random, tally: &mut Tally) -> Result<(), String> {
    let slow = script::read(bytes);
    if let Ok(script) = &slow {
        marks::count_order(bytes, script, tally);
    }
    let numbers = match &slow {
        Ok(script) if script.matches.len() <= FEW => every_number(script),
        Ok(script) => some_numbers(random, script),
        Err(_) => vec![0, random.any_u32()],
    };
    compare_numbers(bytes, &slow, &numbers, random, tally)
}

fn compare_all(bytes: &[u8], random: &mut Random, tally: &mut Tally) -> Result<(), String> {
    let slow = script::read(bytes);
    let numbers = slow.as_ref().map_or(vec![], every_number);
    compare_numbers(bytes, &slow, &numbers, random, tally)
}

/// 0, the number of every match, and numbers past the last.
fn every_number(script: &Script) -> Vec<u32> {
    let count = script.matches.len() as u32;
    (0..=count + 1).chain([u32::MAX]).collect()
}

/// The first and the last match, some between them, and numbers that no match has.
fn some_numbers(random: &mut Random, script: &Script) -> Vec<u32> {
    let count = script.matches.len() as u32;
    let between: Vec<u32> = (0..10).map(|_| random.between(1, count)).collect();
    let edges = [0, 1, count, count + 1, random.any_u32()];
    [&edges, between.as_slice()].concat()
}

fn compare_numbers(
    bytes: &[u8],
    slow: &Result<Script, Refusal>,
    numbers: &[u32],
    random: &mut Random,
    tally: &mut Tally,
) -> Result<(), String> {
    for &number in numbers {
        let slow = slow.as_ref().map_err(|&refusal| refusal);
        let slow = slow.and_then(|script| script.one_match(number));
        tally.met(slow.map(|_| number as usize));
        compare_one(bytes, number, slow, random)
            .map_err(|what| format!("of match {number} {what}"))?;
    }
    Ok(())
}

fn compare_one(
    bytes: &[u8],
    number: u32,
    slow: Result<Match, Refusal>,
    random: &mut Random,
) -> Result<(), String> {
    let before = rubbish(random);
    let mut after = before;
    let answer = door::one_match(bytes, number, &mut after);
    let wanted = wanted(before, slow);
    same("the answer", Refusal::number_in(&slow), answer)?;
    same("place", wanted.place, after.place)?;
    same("left_a", wanted.left_a, after.left_a)?;
    same("left_b", wanted.left_b, after.left_b)?;
    same("length", wanted.length, after.length)?;
    same("reversed", wanted.reversed, after.reversed)
}

fn rubbish(random: &mut Random) -> OneMatch {
    OneMatch {
        place: random.any_usize(),
        left_a: random.any_u32(),
        left_b: random.any_u32(),
        length: random.any_u32(),
        reversed: random.any_u32(),
    }
}

/// Success leaves the place as it was, and a refusal every other number.
fn wanted(before: OneMatch, slow: Result<Match, Refusal>) -> OneMatch {
    match slow {
        Ok(m) => OneMatch {
            place: before.place,
            left_a: m.left_a as u32,
            left_b: m.left_b as u32,
            length: m.length as u32,
            reversed: m.reversed.into(),
        },
        Err(refusal) => OneMatch {
            place: refusal.place,
            ..before
        },
    }
}
