//! `notchergrey_report` beside the slow program: whole printed texts, byte for byte.

use crate::door;
use crate::groups;
use crate::marks;
use crate::part::{same, same_all, Part};
use crate::random::Random;
use crate::slow::refusal::{Refusal, Word};
use crate::slow::report::{run, text_of, ROWS};
use crate::tally::{Need, Tally, REFUSALS_OF_SCRIPTS};

pub const PART: Part<u8> = Part {
    name: "notchergrey_report",
    once: &[groups::EDGES, groups::LARGE, groups::LARGE_WITH_MARKS],
    each_round: &[groups::SHAPES, groups::SHAPES_WITH_MARKS, groups::FAULTS],
    least: 24_000,
    compare,
    needs: &[
        &[
            Need::success(20_000, 100),
            Need::success_with(0),
            Need::success_with(ROWS),
            Need::refused(12, 20, 1),
            Need::refused(16, 20_000, 1),
            Need::kind(marks::MAKES_A_CUT_ON_A, 1_000, 10),
            Need::kind(marks::MAKES_A_CUT_ON_B, 1_000, 10),
            Need::kind(marks::UNSPANNED, 1_000, 10),
            Need::kind(marks::BETWEEN, 1_000, 10),
        ],
        REFUSALS_OF_SCRIPTS,
    ],
};

fn compare(bytes: &[u8], random: &mut Random, tally: &mut Tally) -> Result<(), String> {
    let slow = run(bytes);
    let text = text_of(&slow);
    if let Ok(refined) = &slow {
        marks::count(bytes, &refined.script, tally);
    }
    let rows = slow.map(|refined| refined.rows);
    let just_enough = text.len();
    for room in [just_enough, just_enough + random.count_between(1, 100)] {
        tally.met(rows);
        compare_printed(bytes, text.as_bytes(), room, random)
            .map_err(|what| format!("with {room} bytes of text, {what}"))?;
    }
    for room in [just_enough - 1, random.count_between(0, just_enough - 1)] {
        tally.met(Err(Refusal::of_the_call(Word::BufferTooShort)));
        compare_unprinted(bytes, just_enough, room, random)
            .map_err(|what| format!("with {room} bytes of text, {what}"))?;
    }
    Ok(())
}

/// The text is written, and bytes behind it are kept.
fn compare_printed(
    bytes: &[u8],
    text: &[u8],
    room: usize,
    random: &mut Random,
) -> Result<(), String> {
    let mut got = random.any_bytes(room);
    let mut length = random.any_usize();
    let wanted = [text, &got[text.len()..]].concat();
    let answer = door::report(bytes, &mut got, &mut length);
    same("the answer", 0, answer)?;
    same("the length", text.len(), length)?;
    same_all("text", &wanted, &got)
}

/// A buffer too short for the text is left as it was, and the length is the one it needs.
fn compare_unprinted(
    bytes: &[u8],
    needed: usize,
    room: usize,
    random: &mut Random,
) -> Result<(), String> {
    let before = random.any_bytes(room);
    let (mut got, mut length) = (before.clone(), random.any_usize());
    let answer = door::report(bytes, &mut got, &mut length);
    same("the answer", Word::BufferTooShort as u32, answer)?;
    same("the length", needed, length)?;
    same_all("text", &before, &got)
}
