//! Scripts with a chosen fault, or with several at one command, at many places.

use super::good::{self, good_left, Beginning, LONGEST};
use super::noise::telling_bytes;
use crate::draft::{
    Draft, DraftMark, DraftMatch, BYTES_OF_A_MARK, BYTES_OF_A_MATCH, BYTES_OF_LENGTHS,
};
use crate::random::Random;
use crate::slow::script::{DIRECT, END, LENGTHS, MARK, REVERSED};

const OPERAND_BYTES_OF_LENGTHS: usize = BYTES_OF_LENGTHS - 1;
const OPERAND_BYTES_OF_A_MATCH: usize = BYTES_OF_A_MATCH - 1;
const OPERAND_BYTES_OF_A_MARK: usize = BYTES_OF_A_MARK - 1;

pub fn one_fault(random: &mut Random) -> Vec<Vec<u8>> {
    let faults: [fn(&mut Random, Beginning) -> Vec<u8>; 12] = [
        headless,
        length_out_of_range,
        unknown_command,
        cut_short_match,
        second_lengths,
        cut_short_second_lengths,
        empty_match,
        beyond_a,
        beyond_b,
        cut_short_mark,
        no_such_side,
        mark_beyond,
    ];
    let mut scripts = Vec::new();
    for _ in 0..15 {
        for fault in faults {
            let matches = random.count_between(0, 20);
            let start = good::beginning(random, matches);
            scripts.push(fault(random, start));
        }
    }
    scripts
}

/// Matches and marks whose operands break two or three rules at once, whole and cut short.
pub fn several_faults(random: &mut Random) -> Vec<Vec<u8>> {
    let mut scripts = Vec::new();
    for _ in 0..60 {
        let matches = random.count_between(0, 5);
        let start = good::beginning(random, matches);
        let m = match_of_several_faults(random, start.p, start.q);
        let whole = start.draft.matching(m).without_end();
        let missing = random.count_between(1, OPERAND_BYTES_OF_A_MATCH);
        scripts.push(whole[..whole.len() - missing].to_vec());
        scripts.push(whole);
    }
    for _ in 0..30 {
        let matches = random.count_between(0, 5);
        let start = good::beginning(random, matches);
        let mark = mark_of_several_faults(random, start.p, start.q);
        let whole = start.draft.marking(mark).without_end();
        let missing = random.count_between(1, OPERAND_BYTES_OF_A_MARK);
        scripts.push(whole[..whole.len() - missing].to_vec());
        scripts.push(whole);
    }
    scripts
}

pub fn tails(random: &mut Random) -> Vec<Vec<u8>> {
    let mut scripts = Vec::new();
    for length in 1..=20 {
        for tail_of in [Random::any_bytes, telling_bytes] {
            let matches = random.count_between(0, 20);
            let mut script = good::script(random, matches);
            script.extend(tail_of(random, length));
            scripts.push(script);
        }
    }
    scripts
}

fn headless(random: &mut Random, start: Beginning) -> Vec<u8> {
    let mut script = start.draft.end();
    script[0] = random.one_of(&[DIRECT, REVERSED, MARK, END, LENGTHS - 1, LENGTHS + 2, 0]);
    script
}

/// The beginning's own commands stand behind the bad lengths.
fn length_out_of_range(random: &mut Random, start: Beginning) -> Vec<u8> {
    let (p, q) = bad_lengths(random, start.p, start.q);
    let good = start.draft.end();
    let behind = &good[BYTES_OF_LENGTHS..];
    Draft::lengths(p, q).bytes(behind).without_end()
}

fn unknown_command(random: &mut Random, start: Beginning) -> Vec<u8> {
    let byte = random.any_byte();
    let known = [LENGTHS, DIRECT, REVERSED, MARK, END].contains(&byte);
    let unknown = if known { 0 } else { byte };
    going_on(random, start.draft.command(unknown, &[]))
}

fn cut_short_match(random: &mut Random, start: Beginning) -> Vec<u8> {
    let byte = random.one_of(&[DIRECT, REVERSED]);
    let present = random.count_between(0, OPERAND_BYTES_OF_A_MATCH - 1);
    let operands = random.any_bytes(present);
    start
        .draft
        .command(byte, &[])
        .bytes(&operands)
        .without_end()
}

fn second_lengths(random: &mut Random, start: Beginning) -> Vec<u8> {
    let (p, q) = random.one_of(&[(start.p, start.q), (0, 1), (1, u32::MAX)]);
    going_on(random, start.draft.command(LENGTHS, &[p, q]))
}

fn cut_short_second_lengths(random: &mut Random, start: Beginning) -> Vec<u8> {
    let present = random.count_between(0, OPERAND_BYTES_OF_LENGTHS - 1);
    let operands = random.any_bytes(present);
    start
        .draft
        .command(LENGTHS, &[])
        .bytes(&operands)
        .without_end()
}

fn empty_match(random: &mut Random, start: Beginning) -> Vec<u8> {
    let m = match_of_no_letter(random, start.p, start.q);
    going_on(random, start.draft.matching(m))
}

fn beyond_a(random: &mut Random, start: Beginning) -> Vec<u8> {
    let m = match_beyond_a(random, start.p, start.q);
    going_on(random, start.draft.matching(m))
}

fn beyond_b(random: &mut Random, start: Beginning) -> Vec<u8> {
    let m = match_beyond_b(random, start.p, start.q);
    going_on(random, start.draft.matching(m))
}

fn cut_short_mark(random: &mut Random, start: Beginning) -> Vec<u8> {
    let present = random.count_between(0, OPERAND_BYTES_OF_A_MARK - 1);
    let operands = random.any_bytes(present);
    start
        .draft
        .command(MARK, &[])
        .bytes(&operands)
        .without_end()
}

fn no_such_side(random: &mut Random, start: Beginning) -> Vec<u8> {
    let good = good::good_mark(random, start.p, start.q);
    let mark = DraftMark {
        side: bad_side(random),
        ..good
    };
    going_on(random, start.draft.marking(mark))
}

fn mark_beyond(random: &mut Random, start: Beginning) -> Vec<u8> {
    let (side, letters, others) = random.one_of(&[(0, start.p, start.q), (1, start.q, start.p)]);
    let position = too_far(random, letters, others);
    going_on(random, start.draft.mark(side, position))
}

/// Of no side, and beyond both sequences.
fn mark_of_several_faults(random: &mut Random, p: u32, q: u32) -> DraftMark {
    DraftMark {
        side: bad_side(random),
        position: too_far(random, p.max(q), p.max(q)),
    }
}

fn bad_side(random: &mut Random) -> u8 {
    let any = random.between(2, 255) as u8;
    random.one_of(&[2, 3, 0x41, 0x80, 0xFF, any])
}

/// A position beyond so many letters: by one, by far, or within the other sequence if that is longer.
pub fn too_far(random: &mut Random, letters: u32, others: u32) -> u32 {
    let any = random.between(letters + 1, u32::MAX);
    random.one_of(&[letters + 1, any, others.max(letters + 1), 1 << 31, u32::MAX])
}

/// One of p and q is out of range, or both are.
pub fn bad_lengths(random: &mut Random, p: u32, q: u32) -> (u32, u32) {
    let too_large = random.between(LONGEST + 1, u32::MAX);
    let bad = random.one_of(&[0, LONGEST + 1, u32::MAX, too_large]);
    random.one_of(&[(bad, q), (p, bad), (bad, bad)])
}

pub fn match_of_no_letter(random: &mut Random, p: u32, q: u32) -> DraftMatch {
    DraftMatch {
        left_a: random.one_of(&[0, p, u32::MAX]),
        left_b: random.one_of(&[0, q, u32::MAX]),
        length: 0,
        reversed: random.any_bool(),
    }
}

pub fn match_beyond_a(random: &mut Random, p: u32, q: u32) -> DraftMatch {
    let any = random.between(1, u32::MAX);
    let length = random.one_of(&[1, p, p + 1, u32::MAX, any]);
    DraftMatch {
        left_a: too_far_left(random, p, length),
        left_b: random.one_of(&[0, q, u32::MAX]),
        length,
        reversed: random.any_bool(),
    }
}

pub fn match_beyond_b(random: &mut Random, p: u32, q: u32) -> DraftMatch {
    let any = random.between(1, p);
    let length = random.one_of(&[1, p, any]);
    DraftMatch {
        left_a: good_left(random, p, length),
        left_b: too_far_left(random, q, length),
        length,
        reversed: random.any_bool(),
    }
}

/// Beyond A and beyond B, and sometimes of no letter too.
pub fn match_of_several_faults(random: &mut Random, p: u32, q: u32) -> DraftMatch {
    let length = random.one_of(&[0, 1, p, u32::MAX]);
    DraftMatch {
        left_a: too_far_left(random, p, length),
        left_b: too_far_left(random, q, length),
        length,
        reversed: random.any_bool(),
    }
}

/// A left end from which `length` letters pass the end of `letters`: by one, by far, or by so much
/// that a sum in 32 bits would come out small.
fn too_far_left(random: &mut Random, letters: u32, length: u32) -> u32 {
    let least = (letters + 1).saturating_sub(length);
    let any = random.between(least, u32::MAX);
    let wrapping = length
        .wrapping_neg()
        .saturating_add(random.between(0, letters));
    random.one_of(&[least, any, wrapping.max(least), u32::MAX])
}

/// What stands behind a fault must not change what is said of it.
fn going_on(random: &mut Random, faulty: Draft) -> Vec<u8> {
    match random.between(0, 3) {
        0 => faulty.without_end(),
        1 => faulty.end(),
        2 => faulty.direct(0, 0, 1).end(),
        _ => {
            let length = random.count_between(1, 30);
            let noise = telling_bytes(random, length);
            faulty.bytes(&noise).without_end()
        }
    }
}
