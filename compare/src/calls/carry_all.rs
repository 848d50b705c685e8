//! `notchergrey_carry_all_from_a` and `notchergrey_carry_all_from_b` beside the slow program, and beside the doors that
//! carry one position.

use super::carry::{self, numbers};
use crate::door::{self, Carrying};
use crate::groups;
use crate::groups::positions::{another_room, any_length, lists, lists_without_a_match};
use crate::marks;
use crate::part::{same, same_all, Element, Part};
use crate::positions;
use crate::random::Random;
use crate::slow::carrying::{carry_all, Side};
use crate::slow::refusal::{Refusal, Word};
use crate::slow::script::{self, Match, Script};
use crate::tally::{Need, Outcome, Tally, REFUSALS_OF_SCRIPTS};

const SINGLY: &str = "each number held to the single call";
const SINGLY_OFF: &str = "14, and a single call says it";
const SINGLY_REFUSED: &str = "refused as a single call is";

/// Lists of no position, of one, of several and of some hundreds.
pub const PART: Part<u8> = Part {
    name: "notchergrey_carry_all_from_a and _from_b",
    once: &[groups::EDGES, groups::LARGE],
    each_round: &[groups::SHAPES, groups::SHAPES_WITH_MARKS, groups::FAULTS],
    least: 8_000,
    compare,
    needs: &[
        &[
            Need::success(60_000, 150),
            Need::refused(13, 70_000, 1),
            Need::refused(14, 60_000, 1),
            Need::refused(22, 100_000, 1),
            Need::kind(marks::FIRST, 700, 30),
            Need::kind(marks::BETWEEN, 600, 20),
            Need::kind(marks::BEHIND, 400, 10),
        ],
        REFUSALS_OF_SCRIPTS,
        BEFORE_THE_COUNTS,
        OTHER_COUNTS,
        OFF_THE_MATCH,
        CARRIED,
        AS_SINGLE_CALLS,
    ],
};

const BEFORE_THE_COUNTS: &[Need] = &[
    Need::kind(positions::REFUSED_AND_DIFFERENT, 15_000, 100),
    Need::kind(positions::REFUSED_AND_EMPTY, 20_000, 1),
    Need::kind(positions::NO_MATCH_AND_DIFFERENT, 25_000, 150),
    Need::kind(positions::NO_MATCH_AND_EMPTY, 25_000, 1),
];

/// With many different counts of positions.
const OTHER_COUNTS: &[Need] = &[
    Need::kind(positions::ONE_TOO_FEW, 40_000, 100),
    Need::kind(positions::ONE_TOO_MANY, 30_000, 100),
    Need::kind(positions::TWICE_AS_MANY, 20_000, 100),
    Need::kind(positions::SOME_INTO_NONE, 25_000, 100),
    Need::kind(positions::NONE_INTO_SOME, 5_000, 1),
    Need::kind(positions::DIFFERENT_AND_ON, 40_000, 100),
    Need::kind(positions::DIFFERENT_AND_OFF, 60_000, 100),
    Need::kind(positions::OFF_PAST_THE_NUMBERS, 6_000, 100),
];

/// With the position off the match at many places of the list.
const OFF_THE_MATCH: &[Need] = &[
    Need::kind(positions::FIRST_OFF, 12_000, 1),
    Need::kind(positions::MIDDLE_OFF, 12_000, 100),
    Need::kind(positions::LAST_OFF, 12_000, 100),
    Need::kind(positions::ONE_OFF, 12_000, 1),
    Need::kind(positions::SEVERAL_OFF, 12_000, 80),
    Need::kind(positions::BEFORE_THE_LEFT_END, 7_000, 80),
    Need::kind(positions::BEHIND_THE_RIGHT_END, 10_000, 80),
    Need::kind(positions::LARGEST, 12_000, 80),
    Need::kind(positions::ON_B_ALONE, 6_000, 50),
    Need::kind(positions::ON_A_ALONE, 6_000, 50),
];

/// With many different counts of positions.
const CARRIED: &[Need] = &[
    Need::kind(positions::NONE_INTO_NONE, 20_000, 1),
    Need::kind(positions::ONE, 12_000, 1),
    Need::kind(positions::DIRECT, 12_000, 100),
    Need::kind(positions::REVERSED, 12_000, 100),
    Need::kind(positions::DIRECTION_TELLS, 35_000, 150),
    Need::kind(positions::OFF_ON_B, 10_000, 50),
    Need::kind(positions::OFF_ON_A, 10_000, 50),
    Need::kind(positions::LEFT_END, 25_000, 150),
    Need::kind(positions::RIGHT_END, 25_000, 150),
    Need::kind(positions::EVERY, 12_000, 100),
    Need::kind(positions::REPEATED, 12_000, 150),
    Need::kind(positions::OUT_OF_ORDER, 10_000, 150),
    Need::kind(positions::HUNDREDS, 120, 80),
];

const AS_SINGLE_CALLS: &[Need] = &[
    Need::kind(SINGLY, 60_000, 150),
    Need::kind(SINGLY_OFF, 60_000, 150),
    Need::kind(SINGLY_REFUSED, 100_000, 200),
];

/// Lists of up to 65,537 positions.
pub const PART_OF_LONG_LISTS: Part<u8> = Part {
    name: "notchergrey_carry_all_from_a and _from_b, long lists",
    once: &[groups::FEW_ROWS],
    each_round: &[],
    least: 0,
    compare: compare_long,
    needs: &[&[
        Need::success(200, 15),
        Need::success_with(LONGEST_LIST),
        Need::refused(14, 200, 1),
        Need::refused(22, 300, 1),
        Need::kind(positions::MIDDLE_OFF, 40, 40),
        Need::kind(positions::LAST_OFF, 40, 10),
        Need::kind_with(positions::LAST_OFF, LONGEST_LIST - 1),
        Need::kind(positions::HUNDREDS, 40, 10),
        Need::kind(SINGLY, 200, 15),
    ]],
};

/// One more than 16 bits count.
const LONGEST_LIST: usize = 65_537;

/// A script of more bytes is put to fewer lists: the single doors read the whole of it for each position.
const FEW_BYTES: usize = 2_600;

/// What a call names beside its list, and the match that it means.
struct Over<'a> {
    bytes: &'a [u8],
    number: u32,
    side: Side,
    found: Result<Match, Refusal>,
}

fn compare(bytes: &[u8], random: &mut Random, tally: &mut Tally) -> Result<(), String> {
    let slow = script::read(bytes);
    if let Ok(script) = &slow {
        marks::count_order(bytes, script, tally);
    }
    for number in numbers(&slow, random) {
        for side in [Side::A, Side::B] {
            let over = Over::of(bytes, &slow, number, side);
            let length = any_length(random);
            let mut lists = over.lists(length, random);
            if bytes.len() > FEW_BYTES {
                random.shuffle(&mut lists);
                lists.truncate(1);
            }
            compare_lists(&over, &lists, random, tally)?;
        }
    }
    Ok(())
}

/// One match, one side and lists of one length.
fn compare_long(bytes: &[u8], random: &mut Random, tally: &mut Tally) -> Result<(), String> {
    let slow = script::read(bytes);
    let count = slow.as_ref().map_or(0, |script| script.matches.len()) as u32;
    let number = random.between(count.min(1), count);
    let side = random.one_of(&[Side::A, Side::B]);
    let over = Over::of(bytes, &slow, number, side);
    let thousands = random.count_between(2_000, 5_000);
    let length = random.one_of(&[thousands, thousands, 4_096, 4_097, LONGEST_LIST]);
    let lists = over.lists(length, random);
    compare_lists(&over, &lists, random, tally)
}

/// Each list into as many numbers, and into another count of them.
fn compare_lists(
    over: &Over,
    lists: &[Vec<u32>],
    random: &mut Random,
    tally: &mut Tally,
) -> Result<(), String> {
    for list in lists {
        let count = list.len();
        for room in [count, another_room(count, random)] {
            compare_one(over, list, room, random, tally)?;
        }
    }
    Ok(())
}

impl<'a> Over<'a> {
    fn of(bytes: &'a [u8], slow: &Result<Script, Refusal>, number: u32, side: Side) -> Over<'a> {
        let script = slow.as_ref().map_err(|&refusal| refusal);
        let found = script.and_then(|script| script.one_match(number));
        Over {
            bytes,
            number,
            side,
            found,
        }
    }

    fn lists(&self, length: usize, random: &mut Random) -> Vec<Vec<u32>> {
        match &self.found {
            Ok(m) => lists(m, self.side, length, random),
            Err(_) => lists_without_a_match(length, random),
        }
    }

    /// The single door's answer.
    fn carry(&self, position: u32, lent: &mut Carrying) -> u32 {
        door::carry(self.bytes, self.number, self.side, position, lent)
    }
}

// ---- one call

/// Both programs are lent the same rubbish and must leave the same numbers.
fn compare_one(
    over: &Over,
    list: &[u32],
    room: usize,
    random: &mut Random,
    tally: &mut Tally,
) -> Result<(), String> {
    let mut carried = random.any_numbers(room);
    let mut place = random.any_usize();
    let mut slow_carried = carried.clone();
    let Over {
        bytes,
        number,
        side,
        ..
    } = *over;
    let slow = carry_all(bytes, number, side, list, &mut slow_carried);
    // Success leaves the place as it was.
    let wanted_place = slow.map_or_else(|refusal| refusal.place, |()| place);
    tally.met(slow.map(|()| list.len()));
    for (kind, value) in positions::of(&over.found, side, list, room) {
        tally.met_outcome(Outcome::Kind(kind), value);
    }

    let answer = door::carry_all(bytes, number, side, list, &mut carried, &mut place);
    same("the answer", Refusal::number_in(&slow), answer)
        .and_then(|()| same("place", wanted_place, place))
        .and_then(|()| same_all("carried", &slow_carried, &carried))
        .and_then(|()| compare_singly(over, list, slow, &carried, random, tally))
        .map_err(|what| {
            let shown = u32::shown(list);
            format!("{shown}on {side:?} over match {number} into {room} numbers: {what}")
        })
}

/// "each as the single call would": what the list was answered, and what was written, beside the single door. It has no
/// answer like 22.
fn compare_singly(
    over: &Over,
    positions: &[u32],
    answered: Result<(), Refusal>,
    carried: &[u32],
    random: &mut Random,
    tally: &mut Tally,
) -> Result<(), String> {
    let kind = match answered {
        Ok(()) => {
            carried_singly(over, positions, carried, random)?;
            SINGLY
        }
        Err(refusal) if refusal.word == Word::CountsDiffer => return Ok(()),
        Err(refusal) if refusal.word == Word::OffTheMatch => {
            refused_singly(over, positions, refusal, random)?;
            SINGLY_OFF
        }
        Err(refusal) => {
            refused_singly(over, &[random.any_u32()], refusal, random)?;
            SINGLY_REFUSED
        }
    };
    tally.met_outcome(Outcome::Kind(kind), positions.len());
    Ok(())
}

/// The single door carries each to the same number.
fn carried_singly(
    over: &Over,
    positions: &[u32],
    carried: &[u32],
    random: &mut Random,
) -> Result<(), String> {
    for (&position, &carried) in positions.iter().zip(carried) {
        let mut lent = carry::rubbish(random);
        same("a single answer", 0, over.carry(position, &mut lent))?;
        same("a number carried singly", carried, lent.carried)?;
    }
    Ok(())
}

/// The single door refuses one of them likewise.
fn refused_singly(
    over: &Over,
    positions: &[u32],
    refusal: Refusal,
    random: &mut Random,
) -> Result<(), String> {
    let likewise = positions.iter().any(|&position| {
        let mut lent = carry::rubbish(random);
        over.carry(position, &mut lent) == refusal.number() && lent.place == refusal.place
    });
    same("that a single call is refused likewise", true, likewise)
}
