//! The slow program writes scripts from lists and reads them back: the lines of request #101, the
//! orders of refusals, what is kept, and both round trips. Lists with marks are in `mark_lists.rs`.

use compare::draft::{Draft, DraftMatch};
use compare::random::Random;
use compare::slow::records::{read_records, write};
use compare::slow::refusal::Refusal;
use compare::slow::script::read;

const RUBBISH: u8 = 0xA5;
const RUBBISH_NUMBER: u32 = 0xDEAD_BEEF;

/// The run of 01, as a list and as a script.
const RUN: [u32; 8] = [0, 0, 6, 0, 2, 3, 5, 1];
const RUN_BYTES: [u8; 36] = [
    0x4C, 10, 0, 0, 0, 10, 0, 0, 0, // lengths 10 10
    0x44, 0, 0, 0, 0, 0, 0, 0, 0, 6, 0, 0, 0, // direct 0 0 6
    0x52, 2, 0, 0, 0, 3, 0, 0, 0, 5, 0, 0, 0, // reversed 2 3 5
    0x45,
];

/// The answer and the buffer of so many bytes, which held rubbish before.
fn written(p: u32, q: u32, records: &[u32], room: usize) -> (Result<usize, Refusal>, Vec<u8>) {
    let mut script = vec![RUBBISH; room];
    let answer = write(p, q, records, &[], &mut script);
    (answer, script)
}

/// Nothing is written, however long the buffer is.
fn assert_refused(p: u32, q: u32, records: &[u32], number: u32, place: usize) {
    let needed = script_length(records.len() / 4);
    for room in [0, 1, needed - 1, needed, needed + 7] {
        let (answer, script) = written(p, q, records, room);
        let refusal = answer.expect_err("a refusal");
        assert_eq!((refusal.number(), refusal.place), (number, place));
        assert_eq!(script, vec![RUBBISH; room]);
    }
}

fn script_length(records: usize) -> usize {
    10 + 13 * records
}

/// p, q and the records, where there is room for just as many as there are.
fn listed(script: &[u8]) -> (u32, u32, Vec<u32>) {
    let count = read(script).expect("a script").matches.len();
    let mut records = vec![RUBBISH_NUMBER; 4 * count];
    let script = read_records(script, &mut records, &mut []).expect("records");
    assert_eq!(script.matches.len(), count);
    (script.p as u32, script.q as u32, records)
}

/// "records to bytes to records"
fn assert_list_comes_back(p: u32, q: u32, records: &[u32]) {
    let length = script_length(records.len() / 4);
    let (answer, script) = written(p, q, records, length);
    assert_eq!(answer, Ok(length));
    assert_eq!(listed(&script), (p, q, records.to_vec()));
}

/// "bytes to records to bytes"
fn assert_script_comes_back(script: &[u8]) {
    let (p, q, records) = listed(script);
    let (answer, again) = written(p, q, &records, script.len());
    assert_eq!((answer, again), (Ok(script.len()), script.to_vec()));
}

/// Every record of numbers up to 2 and directions up to `most_direction`.
fn every_small_record(most_direction: u32) -> Vec<[u32; 4]> {
    let mut records = Vec::new();
    for left_a in 0..=2 {
        for left_b in 0..=2 {
            for length in 0..=2 {
                let directed = |direction| [left_a, left_b, length, direction];
                records.extend((0..=most_direction).map(directed));
            }
        }
    }
    records
}

/// Every list of up to two of these records.
fn every_short_list(records: &[[u32; 4]]) -> Vec<Vec<u32>> {
    let mut lists = vec![vec![]];
    for first in records {
        lists.push(first.to_vec());
        lists.extend(records.iter().map(|second| [*first, *second].concat()));
    }
    lists
}

/// A match in so many letters.
fn any_match(random: &mut Random, p: u32, q: u32) -> DraftMatch {
    let length = random.between(1, p.min(q));
    DraftMatch {
        left_a: random.between(0, p - length),
        left_b: random.between(0, q - length),
        length,
        reversed: random.any_bool(),
    }
}

#[test]
fn the_run_of_01() {
    let (answer, script) = written(10, 10, &RUN, 36);
    assert_eq!((answer, script), (Ok(36), RUN_BYTES.to_vec()));
}

#[test]
fn a_byte_too_few() {
    for room in 0..=35 {
        let (answer, script) = written(10, 10, &RUN, room);
        let too_short = answer.expect_err("a refusal");
        assert_eq!((too_short.number(), too_short.place), (16, 0));
        assert_eq!(script, vec![RUBBISH; room]);
    }
}

#[test]
fn bytes_behind_the_script_are_kept() {
    let (answer, script) = written(10, 10, &RUN, 50);
    assert_eq!(answer, Ok(36));
    assert_eq!(script[..36], RUN_BYTES);
    assert_eq!(script[36..], [RUBBISH; 14]);
}

#[test]
fn the_empty_list() {
    let (answer, script) = written(1, 2, &[], 10);
    assert_eq!(answer, Ok(10));
    assert_eq!(script, [0x4C, 1, 0, 0, 0, 2, 0, 0, 0, 0x45]);
}

#[test]
fn least_byte_first() {
    let (_, script) = written(0x0807_0605, 0x0C0B_0A09, &[0x0403_0201, 0, 1, 0], 23);
    assert_eq!(script[..9], [0x4C, 5, 6, 7, 8, 9, 10, 11, 12]);
    assert_eq!(script[9..14], [0x44, 1, 2, 3, 4]);
}

#[test]
fn lengths_out_of_range() {
    const LONGEST: u32 = 1_000_000_000;
    for bad in [0, LONGEST + 1, 4_000_000_000, u32::MAX] {
        assert_refused(bad, 10, &[], 5, 0);
        assert_refused(10, bad, &[], 5, 0);
    }
    assert_list_comes_back(LONGEST, 1, &[LONGEST - 1, 0, 1, 1]);
    assert_list_comes_back(1, LONGEST, &[0, LONGEST - 1, 1, 1]);
}

#[test]
fn before_the_records_5_before_15_before_6() {
    assert_refused(0, 10, &[1, 2, 3], 5, 0);
    assert_refused(10, 10, &[1, 2, 3], 15, 0);
    assert_refused(0, 10, &[0; 8_197], 5, 0);
    assert_refused(0, 10, &[0; 8_196], 5, 0);
    for others in 1..=3 {
        assert_refused(10, 10, &vec![0; 8_196 + others], 15, 0);
    }
    assert_refused(10, 10, &[0; 8_196], 6, 0);
}

#[test]
fn what_comes_before_the_records_before_their_faults() {
    for record in [[0, 0, 0, 2], [0, 0, 0, 0], [9, 0, 2, 0], [0, 9, 2, 0]] {
        assert_refused(0, 10, &record, 5, 0);
        assert_refused(10, 10, &[&record[..], &[0]].concat(), 15, 0);
        assert_refused(10, 10, &record.repeat(2_049), 6, 0);
    }
}

#[test]
fn at_a_record_15_before_7_before_8_before_9() {
    assert_refused(10, 10, &[0, 0, 0, 2], 15, 1);
    assert_refused(10, 10, &[11, 11, 0, 2], 15, 1);
    assert_refused(10, 10, &[11, 11, 0, 1], 7, 1);
    assert_refused(10, 10, &[10, 10, 1, 1], 8, 1);
    assert_refused(10, 10, &[9, 10, 1, 1], 9, 1);
}

#[test]
fn directions_above_1() {
    for direction in [2, 3, 0x100, 0x101, 0x1_0000, 1 << 31, u32::MAX] {
        assert_refused(10, 10, &[0, 0, 6, direction], 15, 1);
    }
}

#[test]
fn the_sum_must_not_wrap() {
    assert_refused(10, 10, &[0, 0, 6, 0, 1, 0, 4_294_967_295, 0], 8, 2);
    assert_refused(10, 10, &[4_294_967_295, 0, 4_294_967_295, 0], 8, 1);
    assert_refused(10, 10, &[0, 4_294_967_295, 1, 1], 9, 1);
}

#[test]
fn the_first_faulty_record_counts() {
    let (good, empty) = ([0, 0, 1, 0], [0, 0, 0, 0]);
    let (malformed, beyond_b) = ([0, 0, 1, 2], [0, 10, 1, 0]);
    assert_refused(10, 10, &[good, empty, malformed].concat(), 7, 2);
    assert_refused(10, 10, &[good, good, malformed, empty].concat(), 15, 3);
    assert_refused(10, 10, &[beyond_b, malformed].concat(), 9, 1);
}

#[test]
fn the_most_records() {
    let record = [0, 0, 10, 1];
    let most = record.repeat(2_048);
    assert_eq!(written(10, 10, &most, 26_634).0, Ok(26_634));
    assert_list_comes_back(10, 10, &most);
    let last_faulty = [&record.repeat(2_047)[..], &[0, 1, 10, 1]].concat();
    assert_refused(10, 10, &last_faulty, 9, 2_048);
    assert_refused(10, 10, &record.repeat(2_049), 6, 0);
}

/// Where all directions are good, the script of a list is refused for the same word, at the
/// command of the record.
#[test]
fn a_records_fault_is_that_of_its_match() {
    let mut random = Random::from_seed(1);
    for _ in 0..20_000 {
        let count = random.count_between(1, 4);
        let mut records = Vec::new();
        let mut draft = Draft::lengths(2, 3);
        for _ in 0..count {
            let [left_a, left_b, length] = [(); 3].map(|()| random.one_of(&[0, 1, 1, 2, u32::MAX]));
            let reversed = random.any_bool();
            records.extend([left_a, left_b, length, reversed.into()]);
            draft = draft.matching(DraftMatch {
                left_a,
                left_b,
                length,
                reversed,
            });
        }
        let script = draft.end();
        let at_the_command = |refusal: Refusal| Refusal {
            place: 9 + 13 * (refusal.place - 1),
            ..refusal
        };
        let (answer, bytes) = written(2, 3, &records, script.len());
        let read = read(&script).map(|_| script.len());
        assert_eq!(answer.map_err(at_the_command), read);
        assert_eq!(bytes == script, answer.is_ok());
    }
}

#[test]
fn the_run_read_back() {
    let mut records = [RUBBISH_NUMBER; 8];
    let script = read_records(&RUN_BYTES, &mut records, &mut []).expect("records");
    assert_eq!((script.p, script.q, script.matches.len()), (10, 10, 2));
    assert_eq!(records, RUN);
}

#[test]
fn a_number_too_few() {
    for room in 0..=7 {
        let mut records = vec![RUBBISH_NUMBER; room];
        let too_short = read_records(&RUN_BYTES, &mut records, &mut []).expect_err("a refusal");
        assert_eq!((too_short.number(), too_short.place), (16, 0));
        assert_eq!(records, vec![RUBBISH_NUMBER; room]);
    }
}

#[test]
fn numbers_behind_the_records_are_kept() {
    let mut records = [RUBBISH_NUMBER; 13];
    assert!(read_records(&RUN_BYTES, &mut records, &mut []).is_ok());
    assert_eq!(records[..8], RUN);
    assert_eq!(records[8..], [RUBBISH_NUMBER; 5]);
}

#[test]
fn the_script_before_16() {
    for length in 0..36 {
        for room in [0, 7, 8, 20] {
            let mut records = vec![RUBBISH_NUMBER; room];
            let cut_short = &RUN_BYTES[..length];
            let refused = read_records(cut_short, &mut records, &mut []);
            assert_eq!(refused, Err(read(cut_short).expect_err("a refusal")));
            assert_eq!(records, vec![RUBBISH_NUMBER; room]);
        }
    }
}

/// In two letters there are 10 records, so that there are 1 + 10 + 100 lists; in one letter of
/// either sequence or of both there are 4, 4 and 2.
#[test]
fn every_short_list_of_two_letters_comes_back() {
    let lists = every_short_list(&every_small_record(2));
    for (p, q, good) in [(2, 2, 111), (1, 2, 21), (2, 1, 21), (1, 1, 7)] {
        let is_good = |list: &&Vec<u32>| written(p, q, list, 36).0.is_ok();
        let good_lists: Vec<_> = lists.iter().filter(is_good).collect();
        assert_eq!(good_lists.len(), good);
        for list in good_lists {
            assert_list_comes_back(p, q, list);
        }
    }
}

#[test]
fn every_short_script_of_two_letters_comes_back() {
    let mut scripts = 0;
    for list in every_short_list(&every_small_record(1)) {
        let draft = list.chunks(4).fold(Draft::lengths(2, 2), |draft, record| {
            draft.matching(DraftMatch {
                left_a: record[0],
                left_b: record[1],
                length: record[2],
                reversed: record[3] == 1,
            })
        });
        let script = draft.end();
        if read(&script).is_ok() {
            assert_script_comes_back(&script);
            scripts += 1;
        }
    }
    assert_eq!(scripts, 111);
}

/// Scripts that differ from the run in any one byte come back too, if they are admitted.
#[test]
fn the_run_with_any_byte_comes_back() {
    let mut admitted = 0;
    for place in 0..RUN_BYTES.len() {
        for byte in 0..=u8::MAX {
            let mut script = RUN_BYTES;
            script[place] = byte;
            if read(&script).is_ok() {
                assert_script_comes_back(&script);
                admitted += 1;
            }
        }
    }
    assert!(admitted > 1_000);
}

#[test]
fn long_lists_and_scripts_come_back() {
    let mut random = Random::from_seed(2);
    for (p, q) in [(1, 1), (300, 70_000), (1_000_000_000, 999_999_999)] {
        for count in [0, 1, 2, 100, 2_047, 2_048] {
            let mut records = Vec::new();
            let mut draft = Draft::lengths(p, q);
            for _ in 0..count {
                let m = any_match(&mut random, p, q);
                records.extend([m.left_a, m.left_b, m.length, m.reversed.into()]);
                draft = draft.matching(m);
            }
            let script = draft.end();
            assert_eq!(written(p, q, &records, script.len()).1, script);
            assert_list_comes_back(p, q, &records);
            assert_script_comes_back(&script);
        }
    }
}
