//! The slow program carries lists of positions: the lines of #107, each as the single call would, all or none, and the
//! order of refusals; and the kinds by which the run counts such calls.

use compare::draft::Draft;
use compare::positions;
use compare::slow::carrying::{carry, carry_all, Side};
use compare::slow::refusal::{Refusal, Word};
use compare::slow::script::{self, Match};

const RUBBISH: u32 = 0xDEAD_BEEF;

/// The run of 01.
fn run() -> Vec<u8> {
    Draft::lengths(10, 10)
        .direct(0, 0, 6)
        .reversed(2, 3, 5)
        .end()
}

/// The answer and the buffer of so many numbers, which held rubbish before.
fn carried(
    script: &[u8],
    number: u32,
    side: Side,
    positions: &[u32],
    room: usize,
) -> (Result<(), Refusal>, Vec<u32>) {
    let mut carried = vec![RUBBISH; room];
    let answer = carry_all(script, number, side, positions, &mut carried);
    (answer, carried)
}

/// Over the run's second match, into as many numbers.
fn assert_carried(side: Side, positions: &[u32], wanted: &[u32]) {
    let (answer, numbers) = carried(&run(), 2, side, positions, positions.len());
    assert_eq!((answer, &numbers[..]), (Ok(()), wanted));
}

/// Nothing is written.
fn assert_refused(number: u32, side: Side, positions: &[u32], room: usize, word: Word) {
    let (answer, numbers) = carried(&run(), number, side, positions, room);
    assert_eq!(answer, Err(Refusal { word, place: 0 }));
    assert_eq!(numbers, vec![RUBBISH; room]);
}

#[test]
fn the_lines_of_107() {
    assert_carried(Side::A, &[2, 3, 7], &[8, 7, 3]);
    assert_carried(Side::B, &[3, 8], &[7, 2]);
    assert_carried(Side::A, &[], &[]);
    assert_refused(2, Side::A, &[2, 8, 3], 3, Word::OffTheMatch);
    assert_refused(2, Side::A, &[99], 2, Word::CountsDiffer);
    assert_refused(2, Side::A, &[], 1, Word::CountsDiffer);
    assert_refused(3, Side::A, &[], 1, Word::NoSuchMatch);
}

#[test]
fn in_the_order_of_the_list() {
    assert_carried(Side::A, &[7, 2, 7, 5, 2], &[3, 8, 3, 5, 8]);
    assert_carried(Side::B, &[8, 8, 3, 4], &[2, 2, 7, 6]);
}

#[test]
fn a_direct_match() {
    let script = Draft::lengths(20, 30).direct(3, 11, 6).end();
    let (on_a, on_b): (Vec<u32>, Vec<u32>) = ((3..=9).collect(), (11..=17).collect());
    assert_eq!(
        carried(&script, 1, Side::A, &on_a, 7),
        (Ok(()), on_b.clone())
    );
    assert_eq!(carried(&script, 1, Side::B, &on_b, 7), (Ok(()), on_a));
}

#[test]
fn every_short_list_as_the_single_calls() {
    let lists = short_lists();
    assert_eq!(lists.len(), 1 + 12 + 144 + 1_728);
    for list in lists {
        for (number, side) in [(1, Side::A), (1, Side::B), (2, Side::A), (2, Side::B)] {
            assert_as_single_calls(number, side, &list);
        }
    }
}

/// Every list of up to three of the positions 0 to 10 and the largest number.
fn short_lists() -> Vec<Vec<u32>> {
    let mut lists = vec![vec![]];
    let mut next = 0;
    while lists[next].len() < 3 {
        for last in (0..=10).chain([u32::MAX]) {
            lists.push([&lists[next][..], &[last]].concat());
        }
        next += 1;
    }
    lists
}

fn assert_as_single_calls(number: u32, side: Side, list: &[u32]) {
    let single = list
        .iter()
        .map(|&position| carry(&run(), number, side, position));
    let (answer, numbers) = carried(&run(), number, side, list, list.len());
    match single.collect::<Result<Vec<u32>, Refusal>>() {
        Ok(wanted) => assert_eq!((answer, numbers), (Ok(()), wanted)),
        Err(off) => assert_eq!((answer, numbers), (Err(off), vec![RUBBISH; list.len()])),
    }
}

#[test]
fn one_position_off_the_match_refuses_the_lot() {
    for off in [0, 1, 8, 9, u32::MAX] {
        for at in 0..4 {
            let mut list = [2, 7, 4, 5];
            list[at] = off;
            assert_refused(2, Side::A, &list, 4, Word::OffTheMatch);
        }
    }
    // On A position 2 is an end, on B it is off.
    assert_refused(2, Side::B, &[3, 2], 2, Word::OffTheMatch);
}

#[test]
fn only_as_many_numbers() {
    for list in [&[2, 3, 7][..], &[99, 3, 7], &[2, 3, 99]] {
        for room in [0, 1, 2, 4, 5, 100] {
            assert_refused(2, Side::A, list, room, Word::CountsDiffer);
        }
    }
    for room in [1, 2, 100] {
        assert_refused(2, Side::B, &[], room, Word::CountsDiffer);
    }
}

#[test]
fn the_script_before_13_before_22_before_14() {
    let tail = [run(), vec![0]].concat();
    for (list, room) in [(&[][..], 0), (&[], 1), (&[99], 1), (&[99], 2), (&[2], 0)] {
        let (answer, numbers) = carried(&tail, 3, Side::A, list, room);
        let refusal = Refusal {
            word: Word::Tail,
            place: 36,
        };
        assert_eq!((answer, numbers), (Err(refusal), vec![RUBBISH; room]));
        for number in [0, 3, u32::MAX] {
            assert_refused(number, Side::A, list, room, Word::NoSuchMatch);
        }
    }
    assert_refused(2, Side::A, &[99], 2, Word::CountsDiffer);
    assert_refused(2, Side::A, &[99], 1, Word::OffTheMatch);
}

#[test]
fn counts_differ_is_22() {
    assert_eq!(Refusal::of_the_call(Word::CountsDiffer).number(), 22);
}

// ---- the kinds of calls

/// Of a list for a match that spans 10 to 15 on A and 40 to 45 on B, from A.
fn kinds(reversed: bool, list: &[u32], room: usize) -> Vec<(&'static str, usize)> {
    let m = Match {
        left_a: 10,
        left_b: 40,
        length: 5,
        reversed,
    };
    positions::of(&Ok(m), Side::A, list, room)
}

#[test]
fn kinds_of_lists_off_the_match() {
    use positions::*;
    assert_eq!(
        kinds(false, &[9], 1),
        [(ONE_OFF, 0), (BEFORE_THE_LEFT_END, 0)]
    );
    assert_eq!(
        kinds(false, &[16, 10], 2),
        [(FIRST_OFF, 0), (BEHIND_THE_RIGHT_END, 0)]
    );
    assert_eq!(
        kinds(false, &[10, 15, 40, 12], 4),
        [(MIDDLE_OFF, 2), (ON_B_ALONE, 2)]
    );
    assert_eq!(
        kinds(true, &[10, u32::MAX], 2),
        [(LAST_OFF, 1), (LARGEST, 1)]
    );
    assert_eq!(kinds(true, &[10, 9, 16], 3), [(SEVERAL_OFF, 1)]);
}

#[test]
fn kinds_of_lists_with_other_counts() {
    use positions::*;
    assert_eq!(
        kinds(false, &[10, 11], 1),
        [(ONE_TOO_FEW, 2), (DIFFERENT_AND_ON, 2)]
    );
    assert_eq!(
        kinds(false, &[10, 99], 1),
        [
            (ONE_TOO_FEW, 2),
            (DIFFERENT_AND_OFF, 2),
            (OFF_PAST_THE_NUMBERS, 2)
        ]
    );
    assert_eq!(
        kinds(false, &[99, 10], 3),
        [(ONE_TOO_MANY, 2), (DIFFERENT_AND_OFF, 2)]
    );
    assert_eq!(
        kinds(false, &[10, 10], 4),
        [(TWICE_AS_MANY, 2), (DIFFERENT_AND_ON, 2)]
    );
    assert_eq!(
        kinds(false, &[10, 10], 0),
        [(SOME_INTO_NONE, 2), (DIFFERENT_AND_ON, 2)]
    );
    assert_eq!(kinds(false, &[], 2), [(NONE_INTO_SOME, 0)]);
    let tail = script::read(&[run(), vec![0]].concat()).map(|script| script.matches[0]);
    assert_eq!(
        positions::of(&tail, Side::B, &[1], 2),
        [(REFUSED_AND_DIFFERENT, 1)]
    );
    assert_eq!(
        positions::of(&tail, Side::B, &[], 0),
        [(REFUSED_AND_EMPTY, 0)]
    );
    let no_match = Err(Refusal::of_the_call(Word::NoSuchMatch));
    assert_eq!(
        positions::of(&no_match, Side::B, &[], 1),
        [(NO_MATCH_AND_DIFFERENT, 0)]
    );
    assert_eq!(
        positions::of(&no_match, Side::B, &[], 0),
        [(NO_MATCH_AND_EMPTY, 0)]
    );
    assert_eq!(positions::of(&no_match, Side::B, &[1], 1), []);
}

#[test]
fn kinds_of_lists_that_are_carried() {
    use positions::*;
    assert_eq!(kinds(false, &[], 0), [(NONE_INTO_NONE, 0)]);
    assert_eq!(
        kinds(true, &[12], 1),
        [(ONE, 1), (DIRECTION_TELLS, 1), (OFF_ON_B, 1)]
    );
    let ends = [(LEFT_END, 2), (RIGHT_END, 2)];
    assert_eq!(
        kinds(false, &[15, 10], 2),
        [
            &[(DIRECT, 2), (DIRECTION_TELLS, 2), (OFF_ON_B, 2)][..],
            &ends
        ]
        .concat()
    );
    let several = [(REVERSED, 3), (DIRECTION_TELLS, 3), (OFF_ON_B, 3)];
    let again = [(REPEATED, 3), (OUT_OF_ORDER, 3)];
    assert_eq!(
        kinds(true, &[12, 11, 12], 3),
        [&several[..], &again].concat()
    );
    let every = kinds(true, &[10, 11, 12, 13, 14, 15], 6);
    assert!(every.contains(&(EVERY, 6)) && !every.contains(&(REPEATED, 6)));
    assert!(kinds(true, &[13; 100], 100).contains(&(HUNDREDS, 100)));
}
