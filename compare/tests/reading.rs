//! The slow program reads: the lines of 01 that the reader decides, and the orders of refusals.

use compare::draft::Draft;
use compare::slow::refusal::{Refusal, Word};
use compare::slow::script::{read, Match, Script};

fn assert_refused(bytes: &[u8], number: u32, place: usize) {
    let refusal = read(bytes).expect_err("a refusal");
    assert_eq!((refusal.number(), refusal.place), (number, place));
}

fn many_matches(count: usize) -> Draft {
    (0..count).fold(Draft::lengths(10, 10), |draft, _| draft.direct(0, 0, 10))
}

#[test]
fn no_bytes() {
    assert_refused(&[], 1, 0);
}

#[test]
fn lengths_and_end() {
    let bytes = [0x4C, 1, 0, 0, 0, 1, 0, 0, 0, 0x45];
    let script = Script {
        p: 1,
        q: 1,
        matches: vec![],
        marks: vec![],
    };
    assert_eq!(read(&bytes), Ok(script));
}

#[test]
fn a_byte_behind_the_end() {
    let bytes = [0x4C, 1, 0, 0, 0, 1, 0, 0, 0, 0x45, 0x45];
    assert_refused(&bytes, 10, 10);
}

#[test]
fn a_match_over_all() {
    let script = read(&Draft::lengths(10, 10).direct(0, 0, 10).end()).expect("a script");
    let all = Match {
        left_a: 0,
        left_b: 0,
        length: 10,
        reversed: false,
    };
    assert_eq!(script.matches, [all]);
}

#[test]
fn a_match_beyond_a() {
    assert_refused(&Draft::lengths(10, 10).direct(1, 0, 10).end(), 8, 9);
}

#[test]
fn the_sum_must_not_wrap() {
    assert_refused(
        &Draft::lengths(10, 10).direct(1, 0, 4_294_967_295).end(),
        8,
        9,
    );
    let twice = Draft::lengths(10, 10).direct(4_294_967_295, 0, 4_294_967_295);
    assert_refused(&twice.end(), 8, 9);
    assert_refused(
        &Draft::lengths(10, 10).reversed(0, 4_294_967_295, 1).end(),
        9,
        9,
    );
}

#[test]
fn the_run_of_01() {
    let bytes = [
        0x4C, 10, 0, 0, 0, 10, 0, 0, 0, // lengths 10 10
        0x44, 0, 0, 0, 0, 0, 0, 0, 0, 6, 0, 0, 0, // direct 0 0 6
        0x52, 2, 0, 0, 0, 3, 0, 0, 0, 5, 0, 0, 0, // reversed 2 3 5
        0x45,
    ];
    let first = Match {
        left_a: 0,
        left_b: 0,
        length: 6,
        reversed: false,
    };
    let second = Match {
        left_a: 2,
        left_b: 3,
        length: 5,
        reversed: true,
    };
    let script = Script {
        p: 10,
        q: 10,
        matches: vec![first, second],
        marks: vec![],
    };
    assert_eq!(read(&bytes), Ok(script));
}

#[test]
fn least_byte_first() {
    let bytes = [0x4C, 0x04, 0x03, 0x02, 0x01, 1, 0, 0, 0, 0x45];
    assert_eq!(read(&bytes).expect("a script").p, 0x0102_0304);
}

#[test]
fn the_longest_sequence() {
    let script = read(&Draft::lengths(1_000_000_000, 1).end()).expect("a script");
    assert_eq!((script.p, script.q), (1_000_000_000, 1));
    assert_refused(&Draft::lengths(1_000_000_001, 1).end(), 5, 0);
    assert_refused(&Draft::lengths(1, 1_000_000_001).end(), 5, 0);
}

#[test]
fn the_most_matches() {
    let most = many_matches(2_048).end();
    assert_eq!(most.len(), 26_634);
    assert_eq!(read(&most).expect("a script").matches.len(), 2_048);
    assert_refused(&many_matches(2_049).end(), 6, 26_633);
}

#[test]
fn the_first_29707_bytes_decide() {
    let longest = (0..512).fold(many_matches(2_048), |draft, _| draft.mark(1, 10));
    let tail = [longest.clone().end(), vec![0x45; 100]].concat();
    let no_end = longest.clone().without_end();
    let cut_short = [no_end, vec![0x4D]].concat();
    let too_many = many_matches(2_300).end();
    assert_eq!(longest.end().len(), 29_706);
    for (long, number, place) in [
        (tail, 10, 29_706),
        (cut_short, 19, 29_705),
        (too_many, 6, 26_633),
    ] {
        let deciding = &long[..long.len().min(29_707)];
        assert_eq!(read(&long), read(deciding));
        assert_refused(&long, number, place);
    }
}

#[test]
fn at_a_match_6_before_3() {
    let cut_short = many_matches(2_048).command(0x52, &[]).without_end();
    assert_refused(&cut_short, 6, 26_633);
}

#[test]
fn at_a_match_6_before_7_8_9() {
    assert_refused(&many_matches(2_048).direct(0, 0, 0).end(), 6, 26_633);
    assert_refused(&many_matches(2_048).direct(1, 1, 10).end(), 6, 26_633);
}

#[test]
fn at_a_match_3_before_7_8_9() {
    let whole = Draft::lengths(10, 10).direct(11, 11, 0).without_end();
    for length in 10..whole.len() {
        assert_refused(&whole[..length], 3, 9);
    }
    assert_refused(&whole, 7, 9);
}

#[test]
fn at_a_match_7_before_8_before_9() {
    assert_refused(&Draft::lengths(10, 10).direct(11, 11, 0).end(), 7, 9);
    assert_refused(&Draft::lengths(10, 10).direct(10, 10, 1).end(), 8, 9);
    assert_refused(&Draft::lengths(10, 10).direct(9, 10, 1).end(), 9, 9);
}

#[test]
fn at_lengths_4_before_3_before_5() {
    let again = Draft::lengths(1, 1).command(0x4C, &[0, 0]).without_end();
    for length in 10..=again.len() {
        assert_refused(&again[..length], 4, 9);
    }
    let empty = Draft::lengths(0, 0).without_end();
    for length in 1..empty.len() {
        assert_refused(&empty[..length], 3, 0);
    }
    assert_refused(&empty, 5, 0);
}

#[test]
fn bytes_that_run_out_where_a_command_is_due() {
    assert_refused(&Draft::lengths(1, 1).without_end(), 3, 9);
    assert_refused(&many_matches(2_048).without_end(), 3, 26_633);
}

#[test]
fn unknown_commands() {
    assert_refused(&[0x45], 1, 0);
    for byte in [0x43, 0x46, 0x4B, 0x4E, 0x51, 0x53, 0, 0xFF] {
        let unknown = Draft::lengths(1, 1).command(byte, &[]).without_end();
        assert_refused(&unknown, 2, 9);
    }
}

#[test]
fn one_match_by_its_number() {
    let script = read(
        &Draft::lengths(10, 10)
            .direct(0, 0, 6)
            .reversed(2, 3, 5)
            .end(),
    );
    let script = script.expect("a script");
    let no_such_match = Refusal {
        word: Word::NoSuchMatch,
        place: 0,
    };
    assert_eq!(script.one_match(0), Err(no_such_match));
    assert_eq!(script.one_match(1), Ok(script.matches[0]));
    assert_eq!(script.one_match(2), Ok(script.matches[1]));
    assert_eq!(script.one_match(3), Err(no_such_match));
    assert_eq!(script.one_match(u32::MAX), Err(no_such_match));
}
