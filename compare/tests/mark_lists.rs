//! The slow program writes scripts from lists with marks and reads them back: the orders and places of the refusals,
//! what is kept, and both round trips.

use compare::draft::{Draft, DraftMark, DraftMatch};
use compare::marks::{matches_come_first, with_matches_first};
use compare::random::Random;
use compare::slow::records::{read_records, write};
use compare::slow::refusal::Refusal;
use compare::slow::script::read;

const RUBBISH: u8 = 0xA5;
const RUBBISH_NUMBER: u32 = 0xDEAD_BEEF;

/// The run of 01 with two marks, as lists and as a script.
const RUN: [u32; 8] = [0, 0, 6, 0, 2, 3, 5, 1];
const MARKS: [u32; 4] = [1, 7, 0, 0x0900];
const RUN_BYTES: [u8; 48] = [
    0x4C, 0, 10, 0, 0, 10, 0, 0, 0, // lengths 2560 10
    0x44, 0, 0, 0, 0, 0, 0, 0, 0, 6, 0, 0, 0, // direct 0 0 6
    0x52, 2, 0, 0, 0, 3, 0, 0, 0, 5, 0, 0, 0, // reversed 2 3 5
    0x4D, 1, 7, 0, 0, 0, // mark B 7
    0x4D, 0, 0, 9, 0, 0, // mark A 2304
    0x45,
];

/// The answer and the buffer of so many bytes, which held rubbish before.
fn written(
    (p, q): (u32, u32),
    records: &[u32],
    marks: &[u32],
    room: usize,
) -> (Result<usize, Refusal>, Vec<u8>) {
    let mut script = vec![RUBBISH; room];
    let answer = write(p, q, records, marks, &mut script);
    (answer, script)
}

/// Nothing is written, however long the buffer is.
fn assert_refused(lengths: (u32, u32), records: &[u32], marks: &[u32], number: u32, place: usize) {
    for room in [0, 1, 20_000, 40_000] {
        let (answer, script) = written(lengths, records, marks, room);
        let refusal = answer.expect_err("a refusal");
        assert_eq!((refusal.number(), refusal.place), (number, place));
        assert_eq!(script, vec![RUBBISH; room]);
    }
}

/// p, q, the records and the marks, where there is room for just as many as there are.
fn listed(script: &[u8]) -> ((u32, u32), Vec<u32>, Vec<u32>) {
    let read = read(script).expect("a script");
    let mut records = vec![RUBBISH_NUMBER; 4 * read.matches.len()];
    let mut marks = vec![RUBBISH_NUMBER; 2 * read.marks.len()];
    let same = read_records(script, &mut records, &mut marks).expect("records");
    assert_eq!(same, read);
    ((read.p as u32, read.q as u32), records, marks)
}

const TEN: (u32, u32) = (10, 10);

#[test]
fn the_run_with_marks() {
    let lengths = (2_560, 10);
    let (answer, script) = written(lengths, &RUN, &MARKS, 48);
    assert_eq!((answer, script), (Ok(48), RUN_BYTES.to_vec()));
    assert_eq!(listed(&RUN_BYTES), (lengths, RUN.to_vec(), MARKS.to_vec()));
    let (answer, script) = written(lengths, &RUN, &MARKS, 50);
    assert_eq!((answer, &script[48..]), (Ok(48), &[RUBBISH; 2][..]));
}

#[test]
fn a_byte_too_few() {
    for room in 0..48 {
        let (answer, script) = written((2_560, 10), &RUN, &MARKS, room);
        let too_short = answer.expect_err("a refusal");
        assert_eq!((too_short.number(), too_short.place), (16, 0));
        assert_eq!(script, vec![RUBBISH; room]);
    }
}

// ---- the order of refusals: 5, 15, 6, 19, the records, the marks, 16

#[test]
fn before_the_records_5_before_15_before_6_before_19() {
    assert_refused((0, 10), &[1, 2, 3], &[0], 5, 0);
    assert_refused((0, 10), &[0; 8_196], &[0; 1_026], 5, 0);
    for (records, marks) in [(3, 0), (0, 1), (3, 1), (8_196, 1), (8_197, 0), (0, 1_027)] {
        assert_refused(TEN, &vec![0; records], &vec![0; marks], 15, 0);
    }
    assert_refused(TEN, &[0; 8_196], &[0; 1_026], 6, 0);
    assert_refused(TEN, &[0; 8_192], &[0; 1_026], 19, 0);
    assert_refused(TEN, &[], &[2; 1_026], 19, 0);
}

#[test]
fn records_before_marks() {
    for (record, number) in [
        ([0, 0, 0, 2], 15),
        ([0, 0, 0, 0], 7),
        ([9, 0, 2, 0], 8),
        ([0, 9, 2, 0], 9),
    ] {
        let records = [&RUN[..], &record].concat();
        for marks in [&[][..], &[0, 0], &[2, 0], &[0, 11]] {
            assert_refused(TEN, &records, marks, number, 3);
        }
    }
}

#[test]
fn marks_are_numbered_on_from_the_matches() {
    assert_refused(TEN, &[], &[2, 0], 20, 1);
    assert_refused(TEN, &[], &[0, 11], 21, 1);
    assert_refused(TEN, &RUN, &[0, 10, 1, 10, 2, 0, 0, 11], 20, 5);
    assert_refused(TEN, &RUN, &[0, 10, 1, 11, 2, 0], 21, 4);
    let most = [&[0, 0, 1, 0].repeat(2_048)[..]].concat();
    let last = [&[1, 0].repeat(511)[..], &[1, 11]].concat();
    assert_refused(TEN, &most, &last, 21, 2_560);
}

#[test]
fn at_a_mark_20_before_21() {
    for side in [2, 3, 0xFF, 0x100, 0x101, 0x1_0000, 1 << 31, u32::MAX] {
        assert_refused(TEN, &[], &[side, 0], 20, 1);
        assert_refused(TEN, &[], &[side, 11], 20, 1);
    }
    let unequal = (10, 20);
    assert_refused(unequal, &[], &[0, 11], 21, 1);
    assert_refused(unequal, &[], &[0, 20], 21, 1);
    assert_refused(unequal, &[], &[1, 21], 21, 1);
    assert_refused(unequal, &[], &[1, u32::MAX], 21, 1);
    assert_eq!(written(unequal, &[], &[0, 10, 1, 20], 22).0, Ok(22));
}

#[test]
fn the_most_marks() {
    let records = [0, 0, 10, 1].repeat(2_048);
    let marks = [1, 10].repeat(512);
    let (answer, script) = written(TEN, &records, &marks, 29_706);
    assert_eq!(answer, Ok(29_706));
    assert_eq!(listed(&script), (TEN, records, marks));
}

/// Where all directions and sides are good or at least a byte, the script of the lists is refused for the same word, at
/// the command of the record or the mark.
#[test]
fn a_marks_fault_is_that_of_its_command() {
    let mut random = Random::from_seed(1);
    for _ in 0..20_000 {
        let matches = random.count_between(0, 2);
        let mut draft = Draft::lengths(2, 3);
        let (mut records, mut marks) = (Vec::new(), Vec::new());
        for _ in 0..matches {
            let [left_a, left_b, length] = [(); 3].map(|()| random.one_of(&[0, 1, 1, 1, 2]));
            records.extend([left_a, left_b, length, 0]);
            draft = draft.direct(left_a, left_b, length);
        }
        for _ in 0..random.between(1, 3) {
            let side = random.one_of(&[0, 1, 1, 2]);
            let position = random.one_of(&[0, 1, 2, 3, 4, u32::MAX]);
            marks.extend([side.into(), position]);
            draft = draft.mark(side, position);
        }
        let script = draft.end();
        let at_the_command = |refusal: Refusal| {
            let before = refusal.place - 1;
            let (matches, marks) = (before.min(matches), before.saturating_sub(matches));
            Refusal {
                place: 9 + 13 * matches + 6 * marks,
                ..refusal
            }
        };
        let (answer, bytes) = written((2, 3), &records, &marks, script.len());
        let read = read(&script).map(|_| script.len());
        assert_eq!(answer.map_err(at_the_command), read);
        assert_eq!(bytes == script, answer.is_ok());
    }
}

// ---- reading into both lists

#[test]
fn a_number_too_few_in_either_list() {
    for (room, mark_room) in [
        (7, 4),
        (8, 3),
        (0, 4),
        (8, 0),
        (7, 3),
        (7, 9),
        (20, 3),
        (0, 0),
    ] {
        let (mut records, mut marks) =
            (vec![RUBBISH_NUMBER; room], vec![RUBBISH_NUMBER; mark_room]);
        let refused = read_records(&RUN_BYTES, &mut records, &mut marks);
        let too_short = refused.expect_err("a refusal");
        assert_eq!((too_short.number(), too_short.place), (16, 0));
        assert_eq!(records, vec![RUBBISH_NUMBER; room]);
        assert_eq!(marks, vec![RUBBISH_NUMBER; mark_room]);
    }
}

#[test]
fn numbers_behind_both_lists_are_kept() {
    let (mut records, mut marks) = ([RUBBISH_NUMBER; 11], [RUBBISH_NUMBER; 9]);
    assert!(read_records(&RUN_BYTES, &mut records, &mut marks).is_ok());
    assert_eq!(
        (&records[..8], &records[8..]),
        (&RUN[..], &[RUBBISH_NUMBER; 3][..])
    );
    assert_eq!(
        (&marks[..4], &marks[4..]),
        (&MARKS[..], &[RUBBISH_NUMBER; 5][..])
    );
}

#[test]
fn the_script_before_16() {
    for length in 0..48 {
        let cut_short = &RUN_BYTES[..length];
        let refused = read_records(cut_short, &mut [0; 7], &mut []);
        assert_eq!(refused, Err(read(cut_short).expect_err("a refusal")));
    }
}

// ---- round trips

/// Every list of up to two matches and up to two marks in one letter, and every order of its commands.
#[test]
fn every_order_of_commands_in_one_letter() {
    let all = every_command();
    let mut scripts = vec![Draft::lengths(1, 1)];
    let (mut in_order, mut in_others) = (0, 0);
    for _ in 0..=3 {
        for draft in &scripts {
            let script = draft.clone().end();
            let (lengths, records, marks) = listed(&script);
            let (answer, again) = written(lengths, &records, &marks, script.len());
            assert_eq!(answer, Ok(script.len()));
            assert_eq!(again, with_matches_first(&script));
            assert_eq!(again == script, matches_come_first(&script));
            assert_eq!(listed(&again), (lengths, records, marks));
            if again == script {
                in_order += 1;
            } else {
                in_others += 1;
            }
        }
        let and_one_more = |draft: &Draft| {
            let with = |command: &Vec<u8>| draft.clone().bytes(command);
            all.iter().map(with).collect::<Vec<_>>()
        };
        scripts = scripts.iter().flat_map(and_one_more).collect();
    }
    // Of two matches and four marks: none, one, two and three commands.
    assert_eq!(in_order, 1 + 6 + (4 + 8 + 16) + (8 + 16 + 32 + 64));
    assert_eq!(in_order + in_others, 1 + 6 + 36 + 216);
}

/// Both matches and all four marks that there are in one letter.
fn every_command() -> Vec<Vec<u8>> {
    let none = || Draft::lengths(1, 1);
    let commands = [
        none().direct(0, 0, 1),
        none().reversed(0, 0, 1),
        none().mark(0, 0),
        none().mark(0, 1),
        none().mark(1, 0),
        none().mark(1, 1),
    ];
    commands
        .map(|draft| draft.without_end().split_off(9))
        .to_vec()
}

#[test]
fn long_lists_and_scripts_come_back() {
    let mut random = Random::from_seed(2);
    for (p, q) in [(1, 1), (300, 70_000), (1_000_000_000, 999_999_999)] {
        for (matches, marks) in [(0, 1), (1, 0), (7, 5), (100, 511), (2_048, 512)] {
            let mut draft = Draft::lengths(p, q);
            let (mut records, mut mark_list) = (Vec::new(), Vec::new());
            for _ in 0..matches {
                let m = DraftMatch::direct(random.between(0, p - 1), random.between(0, q - 1), 1);
                records.extend([m.left_a, m.left_b, 1, 0]);
                draft = draft.matching(m);
            }
            for _ in 0..marks {
                let (side, letters) = random.one_of(&[(0, p), (1, q)]);
                let position = random.between(0, letters);
                mark_list.extend([side.into(), position]);
                draft = draft.marking(DraftMark { side, position });
            }
            let script = draft.end();
            let (answer, again) = written((p, q), &records, &mark_list, script.len());
            assert_eq!((answer, &again), (Ok(script.len()), &script));
            assert_eq!(listed(&script), ((p, q), records, mark_list));
        }
    }
}
