//! The slow program carries: both sides, both directions, both ends, and the order of refusals.

use compare::draft::Draft;
use compare::slow::carrying::{carry, Side};
use compare::slow::refusal::{Refusal, Word};

fn refused(word: Word, place: usize) -> Result<u32, Refusal> {
    Err(Refusal { word, place })
}

#[test]
fn a_direct_match() {
    let script = Draft::lengths(20, 30).direct(3, 11, 6).end();
    for inside in 0..=6 {
        assert_eq!(carry(&script, 1, Side::A, 3 + inside), Ok(11 + inside));
        assert_eq!(carry(&script, 1, Side::B, 11 + inside), Ok(3 + inside));
    }
}

#[test]
fn a_reversed_match() {
    let script = Draft::lengths(20, 30).reversed(3, 11, 6).end();
    for inside in 0..=6 {
        assert_eq!(carry(&script, 1, Side::A, 3 + inside), Ok(17 - inside));
        assert_eq!(carry(&script, 1, Side::B, 17 - inside), Ok(3 + inside));
    }
}

#[test]
fn off_the_match() {
    let off = refused(Word::OffTheMatch, 0);
    let script = Draft::lengths(20, 30).reversed(3, 11, 6).end();
    for position in [0, 2, 10, 11, 17, u32::MAX] {
        assert_eq!(carry(&script, 1, Side::A, position), off);
    }
    for position in [0, 3, 9, 10, 18, u32::MAX] {
        assert_eq!(carry(&script, 1, Side::B, position), off);
    }
}

#[test]
fn position_4_belongs_to_both_touching_matches() {
    let script = Draft::lengths(8, 8).direct(0, 0, 4).direct(4, 4, 4).end();
    for number in [1, 2] {
        for side in [Side::A, Side::B] {
            assert_eq!(carry(&script, number, side, 4), Ok(4));
        }
    }
}

#[test]
fn the_script_before_13_before_14() {
    let script = Draft::lengths(8, 8).direct(0, 0, 4);
    let tail = [script.clone().end(), vec![0]].concat();
    assert_eq!(carry(&tail, 0, Side::A, 5), refused(Word::Tail, 23));
    let script = script.end();
    for number in [0, 2, u32::MAX] {
        let no_such_match = refused(Word::NoSuchMatch, 0);
        assert_eq!(carry(&script, number, Side::A, 5), no_such_match);
    }
    assert_eq!(carry(&script, 1, Side::A, 5), refused(Word::OffTheMatch, 0));
}

#[test]
fn the_last_of_2048_matches() {
    let most = (0..2_047).fold(Draft::lengths(10, 10), |draft, _| draft.direct(0, 0, 10));
    let script = most.reversed(4, 2, 3).end();
    assert_eq!(carry(&script, 2_048, Side::A, 4), Ok(5));
    assert_eq!(
        carry(&script, 2_049, Side::A, 4),
        refused(Word::NoSuchMatch, 0)
    );
}
