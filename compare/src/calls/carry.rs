//! `notchergrey_carry_from_a` and `notchergrey_carry_from_b` beside the slow program.

use crate::door::{self, Carrying};
use crate::groups;
use crate::marks;
use crate::part::{same, Part};
use crate::random::Random;
use crate::slow::carrying::{carry, Side};
use crate::slow::refusal::Refusal;
use crate::slow::script::{self, Match, Script};
use crate::tally::{Need, Tally, REFUSALS_OF_SCRIPTS};

pub const PART: Part<u8> = Part {
    name: "notchergrey_carry_from_a and _from_b",
    once: &[groups::EDGES, groups::LARGE],
    each_round: &[groups::SHAPES, groups::SHAPES_WITH_MARKS, groups::FAULTS],
    least: 20_000,
    compare,
    needs: &[
        &[
            Need::success(100_000, 1_000),
            Need::refused(13, 10_000, 1),
            Need::refused(14, 50_000, 1),
            Need::kind(marks::FIRST, 1_000, 10),
            Need::kind(marks::BETWEEN, 1_000, 10),
            Need::kind(marks::BEHIND, 1_000, 10),
        ],
        REFUSALS_OF_SCRIPTS,
    ],
};

fn compare(bytes: &[u8], random: &mut Random, tally: &mut Tally) -> Result<(), String> {
    let slow = script::read(bytes);
    if let Ok(script) = &slow {
        marks::count_order(bytes, script, tally);
    }
    for number in numbers(&slow, random) {
        for side in [Side::A, Side::B] {
            for position in positions(&slow, number, side, random) {
                compare_one(bytes, number, side, position, random, tally)?;
            }
        }
    }
    Ok(())
}

/// The first and the last match, some between them, and numbers that no match has.
pub fn numbers(slow: &Result<Script, Refusal>, random: &mut Random) -> Vec<u32> {
    let count = slow.as_ref().map_or(0, |script| script.matches.len()) as u32;
    let mut numbers = vec![0, 1, count, count + 1, random.any_u32()];
    numbers.extend((0..2).map(|_| random.between(0, count)));
    numbers.sort_unstable();
    numbers.dedup();
    numbers
}

/// Positions around the ends of the match on both sides, and any others.
fn positions(
    slow: &Result<Script, Refusal>,
    number: u32,
    side: Side,
    random: &mut Random,
) -> Vec<u32> {
    let any = random.any_u32();
    let found = slow.as_ref().map(|script| script.one_match(number));
    let Ok(Ok(m)) = found else {
        return vec![random.one_of(&[0, 1, any])];
    };
    let [(left, right), (other_left, other_right)] = match side {
        Side::A => [ends(&m, Side::A), ends(&m, Side::B)],
        Side::B => [ends(&m, Side::B), ends(&m, Side::A)],
    };
    let mut positions = vec![0, any, u32::MAX, other_left, other_right];
    positions.extend([left.saturating_sub(1), left, left + 1]);
    positions.extend([right - 1, right, right + 1, random.between(left, right)]);
    positions.sort_unstable();
    positions.dedup();
    positions
}

fn ends(m: &Match, side: Side) -> (u32, u32) {
    let span = m.span(side);
    (*span.start() as u32, *span.end() as u32)
}

fn compare_one(
    bytes: &[u8],
    number: u32,
    side: Side,
    position: u32,
    random: &mut Random,
    tally: &mut Tally,
) -> Result<(), String> {
    let mut lent = rubbish(random);
    let slow = carry(bytes, number, side, position);
    let wanted = wanted(lent, slow);
    tally.met(slow.map(|carried| carried as usize));

    let answer = door::carry(bytes, number, side, position, &mut lent);
    same("the answer", Refusal::number_in(&slow), answer)
        .and_then(|()| same("place", wanted.place, lent.place))
        .and_then(|()| same("carried", wanted.carried, lent.carried))
        .map_err(|what| format!("{position} on {side:?} over match {number}: {what}"))
}

pub fn rubbish(random: &mut Random) -> Carrying {
    Carrying {
        place: random.any_usize(),
        carried: random.any_u32(),
    }
}

/// Success leaves the place as it was, and a refusal the other number.
fn wanted(before: Carrying, slow: Result<u32, Refusal>) -> Carrying {
    match slow {
        Ok(carried) => Carrying { carried, ..before },
        Err(refusal) => Carrying {
            place: refusal.place,
            ..before
        },
    }
}
