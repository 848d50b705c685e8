//! Lists of positions, carried over one match together: each as by itself, or none of them.

mod scripts;

use notchergrey::{carry, carry_all, find_match, read, Refusal, Side, Word};
use scripts::{direct, followed_by, mark_command, run_of_the_specification, script};
use scripts::{EXAMPLES, LONG};

const SIDES: [Side; 2] = [Side::A, Side::B];

/// The positions on the other side, in a buffer of as many numbers. A refusal must keep that buffer.
fn carried(script: &[u8], number: u32, side: Side, positions: &[u32]) -> Result<Vec<u32>, Refusal> {
    into_so_many(script, number, side, positions, positions.len())
}

/// The same in a buffer of so many numbers.
fn into_so_many(
    script: &[u8],
    number: u32,
    side: Side,
    positions: &[u32],
    length: usize,
) -> Result<Vec<u32>, Refusal> {
    let rubbish: Vec<u32> = (0..length as u32).map(|at| u32::MAX - 7 * at).collect();
    let mut buffer = rubbish.clone();
    let answer = carry_all(script, number, side, positions, &mut buffer);
    if answer.is_err() {
        assert_eq!(buffer, rubbish);
    }
    answer.map(|()| buffer)
}

fn word_and_place(refusal: Refusal) -> (Word, usize) {
    (refusal.word(), refusal.place())
}

/// What the single calls say, one behind the other: the first refusal counts.
fn one_by_one(
    script: &[u8],
    number: u32,
    side: Side,
    positions: &[u32],
) -> Result<Vec<u32>, Refusal> {
    let one = |&position| carry(script, number, side, position);
    positions.iter().map(one).collect()
}

/// A number that looks drawn, from the one before.
fn drawn(before: u32) -> u32 {
    before.wrapping_mul(1_664_525).wrapping_add(1_013_904_223)
}

#[test]
fn a_list_goes_over_the_reversed_match_of_the_run() {
    let script = include_bytes!("../../../examples/two-matches.script");
    assert_eq!(carried(script, 2, Side::A, &[2, 3, 7]), Ok(vec![8, 7, 3]));
    assert_eq!(carried(script, 2, Side::B, &[3, 8]), Ok(vec![7, 2]));
    let off = carried(script, 2, Side::A, &[2, 8, 3]).unwrap_err();
    assert_eq!(word_and_place(off), (Word::OffTheMatch, 0));
    let differ = into_so_many(script, 2, Side::A, &[99], 2).unwrap_err();
    assert_eq!(word_and_place(differ), (Word::CountsDiffer, 0));
    let none = into_so_many(script, 3, Side::A, &[], 1).unwrap_err();
    assert_eq!(word_and_place(none), (Word::NoSuchMatch, 0));
}

#[test]
fn an_empty_list_passes_into_an_empty_buffer() {
    let script = run_of_the_specification();
    for side in SIDES {
        for number in [1, 2] {
            assert_eq!(carried(&script, number, side, &[]), Ok(vec![]));
            let differ = into_so_many(&script, number, side, &[], 1).unwrap_err();
            assert_eq!(word_and_place(differ), (Word::CountsDiffer, 0));
        }
        for number in [0, 3, u32::MAX] {
            let none = carried(&script, number, side, &[]).unwrap_err();
            assert_eq!(word_and_place(none), (Word::NoSuchMatch, 0));
        }
        assert_eq!(carried(b"", 1, side, &[]), Err(read(b"").unwrap_err()));
    }
}

#[test]
fn every_pair_of_positions_goes_as_each_by_itself() {
    let marks = [mark_command(0, 1), mark_command(1, 7)];
    let unequal = script(9, 11, &[(b'R', [1, 6, 5]), (b'D', [8, 0, 1])]);
    let small = [
        run_of_the_specification(),
        followed_by(&run_of_the_specification(), &marks),
        followed_by(&unequal, &marks),
    ];
    for script in &small {
        for (number, side) in (0..=3).flat_map(|number| SIDES.map(|side| (number, side))) {
            for first in 0..=12 {
                assert_eq!(
                    carried(script, number, side, &[first]),
                    one_by_one(script, number, side, &[first])
                );
                for second in 0..=12 {
                    let pair = [first, second];
                    assert_eq!(
                        carried(script, number, side, &pair),
                        one_by_one(script, number, side, &pair)
                    );
                }
            }
        }
    }
}

#[test]
fn both_ends_of_every_match_are_carried() {
    for script in EXAMPLES {
        let matches = read(script).unwrap().matches as u32;
        // Of many matches some are enough.
        for number in (1..=matches).step_by(1 + matches as usize / 50) {
            let found = find_match(script, number).unwrap();
            for (side, left) in [(Side::A, found.left_a), (Side::B, found.left_b)] {
                let right = left + found.length;
                let list = [right, left, left + found.length / 2, left, right];
                let singly = one_by_one(script, number, side, &list).unwrap();
                assert_eq!(carried(script, number, side, &list), Ok(singly));
                let beyond = [left, right, right + 1];
                let off = carried(script, number, side, &beyond).unwrap_err();
                assert_eq!(word_and_place(off), (Word::OffTheMatch, 0));
                if left > 0 {
                    assert_eq!(carried(script, number, side, &[left - 1, right]), Err(off));
                }
            }
        }
    }
}

#[test]
fn one_position_off_the_match_refuses_the_lot() {
    let script = run_of_the_specification();
    let spans = [(1, Side::A, 0, 6), (1, Side::B, 0, 6)];
    let reversed_spans = [(2, Side::A, 2, 7), (2, Side::B, 3, 8)];
    for (number, side, left, right) in spans.into_iter().chain(reversed_spans) {
        let good: Vec<u32> = (left..=right).collect();
        assert!(carried(&script, number, side, &good).is_ok());
        let off: Vec<u32> = (0..left).chain([right + 1, LONG, u32::MAX]).collect();
        for at in 0..good.len() {
            for &wrong in &off {
                let mut list = good.clone();
                list[at] = wrong;
                let refusal = carried(&script, number, side, &list).unwrap_err();
                assert_eq!(word_and_place(refusal), (Word::OffTheMatch, 0));
            }
        }
        assert!(carried(&script, number, side, &off).is_err());
    }
}

#[test]
fn the_first_fault_of_the_call_counts() {
    let good = run_of_the_specification();
    let tail = [&good[..], b"E"].concat();
    for side in SIDES {
        // The script, the number, the lengths and the positions: each is good in its turn.
        let refusal = into_so_many(&tail, 3, side, &[99], 2).unwrap_err();
        assert_eq!(word_and_place(refusal), (Word::Tail, good.len()));
        let refusal = into_so_many(&good, 3, side, &[99], 2).unwrap_err();
        assert_eq!(word_and_place(refusal), (Word::NoSuchMatch, 0));
        for length in [0, 2, 3, 100] {
            let refusal = into_so_many(&good, 2, side, &[99], length).unwrap_err();
            assert_eq!(word_and_place(refusal), (Word::CountsDiffer, 0));
        }
        let refusal = into_so_many(&good, 2, side, &[99], 1).unwrap_err();
        assert_eq!(word_and_place(refusal), (Word::OffTheMatch, 0));
        assert!(into_so_many(&good, 2, side, &[4], 1).is_ok());
    }
}

#[test]
fn nothing_is_written_around_the_lent_part() {
    let script = run_of_the_specification();
    let mut buffer = [7; 9];
    carry_all(&script, 2, Side::A, &[2, 3, 7], &mut buffer[3..6]).unwrap();
    assert_eq!(buffer, [7, 7, 7, 8, 7, 3, 7, 7, 7]);
    let positions = [99, 3, 8, 99];
    carry_all(&script, 2, Side::B, &positions[1..3], &mut buffer[7..]).unwrap();
    assert_eq!(buffer, [7, 7, 7, 8, 7, 3, 7, 7, 2]);
    assert_eq!(positions, [99, 3, 8, 99]);
}

#[test]
fn a_long_list_goes_there_and_back() {
    let length = 600_000_000;
    let matches = [
        (b'D', [7, 300_000_000, length]),
        (b'R', [LONG - length, 0, length]),
    ];
    let script = script(LONG, LONG, &matches);
    for (number, left_a) in [(1, 7), (2, LONG - length)] {
        let offsets = std::iter::successors(Some(1), |&before| Some(drawn(before)));
        let list: Vec<u32> = offsets
            .map(|offset| left_a + offset % (length + 1))
            .take(100_000)
            .collect();
        let there = carried(&script, number, Side::A, &list).unwrap();
        for at in (0..list.len()).step_by(997) {
            assert_eq!(carry(&script, number, Side::A, list[at]), Ok(there[at]));
        }
        let wanted = |&position: &u32| match number {
            1 => 300_000_000 + (position - left_a),
            _ => length - (position - left_a),
        };
        assert!(list.iter().map(wanted).eq(there.iter().copied()));
        assert_eq!(carried(&script, number, Side::B, &there), Ok(list.clone()));
        // The last one alone is off the match.
        let mut wrong = list;
        *wrong.last_mut().unwrap() = left_a - 1;
        let refusal = carried(&script, number, Side::A, &wrong).unwrap_err();
        assert_eq!(word_and_place(refusal), (Word::OffTheMatch, 0));
        let refusal = into_so_many(&script, number, Side::A, &wrong, 99_999).unwrap_err();
        assert_eq!(word_and_place(refusal), (Word::CountsDiffer, 0));
    }
}

#[test]
fn no_sum_wraps_on_the_longest_genomes() {
    let last = direct(LONG - 1, LONG - 1, 1);
    let script = notchergrey::write(LONG, LONG, &[last, direct(0, 0, LONG)], &[]).unwrap();
    for side in SIDES {
        let ends = [LONG, LONG - 1];
        assert_eq!(carried(&script, 1, side, &ends), Ok(ends.to_vec()));
        assert_eq!(carried(&script, 2, side, &[LONG, 0]), Ok(vec![LONG, 0]));
        for off in [0, LONG - 2, LONG + 1, u32::MAX - 1, u32::MAX] {
            let refusal = carried(&script, 1, side, &[LONG, off]).unwrap_err();
            assert_eq!(word_and_place(refusal), (Word::OffTheMatch, 0));
        }
        assert!(carried(&script, 2, side, &[0, u32::MAX]).is_err());
    }
}

#[test]
fn a_refused_list_of_positions_is_said_in_words() {
    let script = run_of_the_specification();
    assert_eq!(
        into_so_many(&script, 2, Side::A, &[2, 3], 1).unwrap_err().to_string(),
        "refused as counts differ (22): the positions and the numbers lent for them are not equally many; lend a \
         buffer that is just as long as the list of positions"
    );
    let many = carried(&script, 2, Side::A, &[2, 8, 3]).unwrap_err();
    assert_eq!(
        many.to_string(),
        "refused as off the match (14): the match does not span the position on this side, or does not span each one \
         of many; give positions from its left end there to its right end, both included, and leave out the others"
    );
    assert_eq!(carry(&script, 2, Side::A, 8), Err(many));
}
