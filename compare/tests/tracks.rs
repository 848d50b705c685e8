//! The slow program for any count of tracks (`tracks/slow.rs`) against cuts that were found by hand, and against its
//! definition: of all sets of places that have what the least one must have, it is the part that they share.

#[allow(dead_code)]
#[path = "../tracks/slow.rs"]
mod slow;

use compare::random::Random;
use slow::{close, is_spanned, on_side, rows, Match, Place};
use std::collections::BTreeSet;

const FIRST: usize = 0;
const SECOND: usize = 1;

fn direct(first: (u8, u32), second: (u8, u32), length: u32) -> Match {
    Match::new(first, second, length, false)
}

fn reversed(first: (u8, u32), second: (u8, u32), length: u32) -> Match {
    Match::new(first, second, length, true)
}

fn at(track: u8, position: u32) -> Place {
    Place { track, position }
}

fn cuts(matches: &[Match], marks: &[Place], side: usize, track: u8) -> Vec<u32> {
    let closure = close(matches, marks, usize::MAX);
    assert!(closure.whole);
    on_side(matches, &closure.cuts, side, track)
}

fn count_rows(matches: &[Match], marks: &[Place]) -> usize {
    let closure = close(matches, marks, usize::MAX);
    let [first, second] = [FIRST, SECOND].map(|side| rows(matches, &closure.cuts, side));
    assert_eq!(first, second);
    first
}

/// 01, "One run, complete".
#[test]
fn two_tracks() {
    let matches = [direct((0, 0), (1, 0), 6), reversed((0, 2), (1, 3), 5)];
    assert_eq!(cuts(&matches, &[], FIRST, 0), [0, 2, 3, 4, 6, 7]);
    assert_eq!(cuts(&matches, &[], SECOND, 1), [0, 2, 3, 4, 6, 7, 8]);
    assert!(cuts(&matches, &[], FIRST, 1).is_empty());
    assert!(cuts(&matches, &[], SECOND, 0).is_empty());
    assert_eq!(count_rows(&matches, &[]), 8);
}

#[test]
fn no_match() {
    let closure = close(&[], &[at(0, 3)], usize::MAX);
    assert!(closure.whole && closure.cuts.is_empty());
    assert_eq!(closure.rounds, 0);
    assert_eq!(count_rows(&[], &[at(0, 3)]), 0);
}

/// 2 is an end of the second side and lies on the first, so it is carried to 4; 8 is carried back to 6 likewise.
#[test]
fn track_matched_with_itself() {
    let matches = [direct((0, 0), (0, 2), 8)];
    assert_eq!(cuts(&matches, &[], FIRST, 0), [0, 2, 4, 6, 8]);
    assert_eq!(cuts(&matches, &[], SECOND, 0), [2, 4, 6, 8, 10]);
    assert_eq!(count_rows(&matches, &[]), 4);
    assert_eq!(close(&matches, &[], usize::MAX).rounds, 1);
}

#[test]
fn track_matched_with_itself_reversed() {
    let matches = [reversed((0, 0), (0, 0), 10), direct((0, 0), (0, 0), 3)];
    assert_eq!(cuts(&matches, &[], FIRST, 0), [0, 3, 7, 10]);
    assert_eq!(cuts(&matches, &[], SECOND, 0), [0, 3, 7, 10]);
    assert_eq!(count_rows(&matches, &[]), 4);
}

/// A cut of track 1 is on the second side of one match and on the first of the next. The last end of all is on no second
/// side of track 1.
#[test]
fn three_tracks_in_a_row() {
    let matches = [direct((0, 0), (1, 10), 10), reversed((1, 14), (2, 0), 20)];
    assert_eq!(cuts(&matches, &[], FIRST, 0), [0, 4, 10]);
    assert_eq!(cuts(&matches, &[], SECOND, 1), [10, 14, 20]);
    assert_eq!(cuts(&matches, &[], FIRST, 1), [14, 20, 34]);
    assert_eq!(cuts(&matches, &[], SECOND, 2), [0, 14, 20]);
    assert_eq!(count_rows(&matches, &[]), 4);
}

/// At an end, between ends on either side, twice, on the other track's positions, and off all matches.
#[test]
fn marks() {
    let matches = [reversed((0, 5), (1, 100), 10)];
    let marks = [
        at(0, 5),
        at(0, 7),
        at(1, 101),
        at(1, 101),
        at(0, 100),
        at(1, 111),
        at(2, 7),
    ];
    assert_eq!(cuts(&matches, &marks, FIRST, 0), [5, 7, 14, 15]);
    assert_eq!(cuts(&matches, &marks, SECOND, 1), [100, 101, 108, 110]);
    assert_eq!(count_rows(&matches, &marks), 3);
}

/// Up to the end of 32 bits.
#[test]
fn greatest_positions() {
    let matches = [reversed((0, u32::MAX - 4), (1, u32::MAX - 6), 4)];
    let marks = [at(0, u32::MAX - 1), at(1, u32::MAX)];
    let from_end = |ends: [u32; 3]| ends.map(|end| u32::MAX - end);
    assert_eq!(cuts(&matches, &marks, FIRST, 0), from_end([4, 1, 0]));
    assert_eq!(cuts(&matches, &marks, SECOND, 1), from_end([6, 5, 2]));
}

#[test]
fn given_up() {
    let matches = [direct((0, 0), (0, 1), 100)];
    let closure = close(&matches, &[], 50);
    assert!(!closure.whole && closure.cuts.len() > 50);
    assert!(rows(&matches, &closure.cuts, FIRST) < 100);
}

const TRACKS: u8 = 2;
const LETTERS: u32 = 3;

/// A bit of `chosen` for each place.
fn places(chosen: u32) -> BTreeSet<Place> {
    let all = (0..TRACKS).flat_map(|track| (0..=LETTERS).map(move |h| at(track, h)));
    let chosen = (0..).zip(all).filter(|(bit, _)| chosen >> bit & 1 == 1);
    chosen.map(|(_, place)| place).collect()
}

/// Where position h of a side is on the other, from the left end of the first letter and the right one of the last.
fn image(m: &Match, side: usize, h: u32) -> Place {
    let [from, to] = [m.sides[side], m.sides[1 - side]];
    let mut others: Vec<u32> = (to.left..=to.right).collect();
    if m.reversed {
        others.reverse();
    }
    at(to.track, others[(h - from.left) as usize])
}

fn is_closed(matches: &[Match], marks: &[Place], cuts: &BTreeSet<Place>) -> bool {
    let mut marks = marks.iter().filter(|&&mark| is_spanned(matches, mark));
    let keeps = |m: &Match, side: usize| {
        let stretch = m.sides[side];
        let has = |h: u32| cuts.contains(&at(stretch.track, h));
        let carries = |h: u32| !has(h) || cuts.contains(&image(m, side, h));
        has(stretch.left) && has(stretch.right) && (stretch.left..=stretch.right).all(carries)
    };
    marks.all(|mark| cuts.contains(mark))
        && matches.iter().all(|m| keeps(m, FIRST) && keeps(m, SECOND))
}

#[test]
fn least_of_all_closed_sets() {
    let mut random = Random::from_seed(114);
    for _ in 0..1_000 {
        let mut any = |most: u32| random.between(0, most);
        let mut matches = Vec::new();
        for _ in 0..any(3) {
            let length = 1 + any(LETTERS - 1);
            let mut side = || (any(u32::from(TRACKS) - 1) as u8, any(LETTERS - length));
            let (first, second) = (side(), side());
            matches.push(Match::new(first, second, length, any(1) == 1));
        }
        let count = any(2);
        let marks: Vec<Place> = (0..count)
            .map(|_| at(any(u32::from(TRACKS) - 1) as u8, any(LETTERS)))
            .collect();
        let sets = (0..1 << (u32::from(TRACKS) * (LETTERS + 1))).map(places);
        let closed = sets.filter(|cuts| is_closed(&matches, &marks, cuts));
        let shared = closed
            .reduce(|shared, cuts| &shared & &cuts)
            .expect("all places");
        let closure = close(&matches, &marks, usize::MAX);
        assert!(is_closed(&matches, &marks, &closure.cuts));
        assert_eq!(closure.cuts, shared, "{matches:?} {marks:?}");
    }
}
