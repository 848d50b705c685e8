//! The turns in which cuts are found: by hand, beside the slow program's pieces, and of what kinds calls are.

use compare::random::Random;
use compare::slow::carrying::Side;
use compare::slow::refinement::{least, Piece};
use compare::slow::script::{Mark, Match};
use compare::slow::table::refine_admitted;
use compare::turns::{self, Turn};
use std::collections::BTreeSet;

fn direct(left_a: u64, left_b: u64, length: u64) -> Match {
    Match {
        left_a,
        left_b,
        length,
        reversed: false,
    }
}

/// Two matches of so many letters that start together on A, and one letter apart on B.
fn zigzag(letters: u64) -> Vec<Match> {
    vec![direct(0, 0, letters), direct(0, 1, letters)]
}

/// Matches of one letter that share none with others, from this position on.
fn single_letters(from: u64, count: u64) -> impl Iterator<Item = Match> {
    (0..count).map(move |n| direct(from + 2 * n, from + 2 * n, 1))
}

fn any_matches(random: &mut Random) -> Vec<Match> {
    let count = random.count_between(0, 6);
    let any_match = |_| {
        let length = random.between(1, 12);
        Match {
            left_a: random.between(0, 20).into(),
            left_b: random.between(0, 20).into(),
            length: length.into(),
            reversed: random.any_bool(),
        }
    };
    (0..count).map(any_match).collect()
}

/// Every other time none.
fn any_marks(random: &mut Random) -> Vec<Mark> {
    let count = random.one_of(&[0, 0, 1, 3]);
    let any_mark = |_| Mark {
        side: random.one_of(&[Side::A, Side::B]),
        position: random.between(0, 32).into(),
    };
    (0..count).map(any_mark).collect()
}

fn turn(new: usize, hits: usize, sampled: usize) -> Turn {
    Turn { new, hits, sampled }
}

#[test]
fn no_match_takes_no_turn() {
    let turns = turns::of(&[], &[], 10);
    assert_eq!((turns.turns, turns.cuts), (vec![], [0, 0]));
}

#[test]
fn one_match_takes_two_turns() {
    let turns = turns::of(&[direct(3, 5, 10)], &[], 10);
    assert_eq!(turns.turns, [turn(2, 2, 2), turn(2, 2, 2)]);
    assert_eq!(turns.cuts, [2, 2]);
}

/// On A 0 and 4; on B 0, 1, 4 and 5; on A 1 and 3; on B 2 and 3; on A 2; nothing more on B.
#[test]
fn one_letter_apart() {
    let turns = turns::of(&zigzag(4), &[], 100);
    let wanted = [
        turn(2, 4, 2),
        turn(4, 6, 3),
        turn(2, 4, 2),
        turn(2, 4, 2),
        turn(1, 2, 1),
    ];
    assert_eq!(turns.turns, wanted);
    assert_eq!(turns.cuts, [5, 6]);
    let too_many = [8, 7, 5, 3, 2, 1].map(|capacity| turns.until_too_many(capacity));
    assert_eq!(
        too_many,
        [None, Some(4), Some(3), Some(2), Some(2), Some(1)]
    );
}

/// On A 3, 7 and 13; on B what they are carried to, and the mark 8; on A 6.
#[test]
fn marks_on_both_sides() {
    let mark = |side, position| Mark { side, position };
    let marks = [mark(Side::B, 8), mark(Side::A, 7), mark(Side::A, 4_000)];
    let turns = turns::of(&[direct(3, 5, 10)], &marks, 10);
    assert_eq!(turns.turns, [turn(3, 3, 3), turn(4, 4, 4), turn(1, 1, 1)]);
    assert_eq!(turns.cuts, [4, 4]);
}

#[test]
fn no_turn_behind_too_many_pieces() {
    let whole = turns::of(&zigzag(50), &[], 100);
    let stopped = turns::of(&zigzag(50), &[], 40);
    let until = whole.until_too_many(40).expect("100 pieces");
    assert!(until < whole.turns.len());
    assert_eq!(stopped.turns, whole.turns[..until]);
}

/// In the end each side's cuts are the ends of the pieces, and its hits one more for each match.
#[test]
fn the_pieces_in_the_end() {
    let mut random = Random::from_seed(3);
    for _ in 0..3_000 {
        let matches = any_matches(&mut random);
        let marks = any_marks(&mut random);
        let pieces = least(&matches, &marks, usize::MAX).expect("pieces");
        let turns = turns::of(&matches, &marks, pieces.len());
        let on_a = ends(&pieces, |piece| piece.left_a);
        let on_b = ends(&pieces, |piece| piece.left_b);
        assert_eq!(turns.cuts, [on_a, on_b], "{matches:?} {marks:?}");
        for first in 0..2 {
            let hits = turns.turns.iter().skip(first).step_by(2);
            let hits: usize = hits.map(|turn| turn.hits).sum();
            assert_eq!(hits, pieces.len() + matches.len(), "{matches:?}");
        }
        assert_eq!(turns.until_too_many(pieces.len()), None);
        let one_less = pieces.len().checked_sub(1);
        assert!(one_less.is_none_or(|rows| turns.until_too_many(rows).is_some()));
    }
}

fn ends(pieces: &[Piece], left: fn(&Piece) -> u64) -> usize {
    let both = |piece| [left(piece), left(piece) + piece.length];
    pieces.iter().flat_map(both).collect::<BTreeSet<_>>().len()
}

/// A zigzag of 600 letters, and 31 matches of one letter.
#[test]
fn late_tables_and_refusals() {
    let matches: Vec<Match> = zigzag(600)
        .into_iter()
        .chain(single_letters(700, 31))
        .collect();
    let rows = 1_231;
    let all = turns::of(&matches, &[], rows);
    let exact = [
        turns::LATE_TABLE,
        turns::LATE_AND_EXACT,
        turns::FEW_CUTS,
        turns::EXACT_512,
    ];
    assert_eq!(all.kinds(rows, Some(rows)), exact);
    let more = [turns::LATE_TABLE, turns::FEW_CUTS];
    assert_eq!(all.kinds(rows + 1, Some(rows)), more);
    let short = [
        turns::LATE_AND_SHORT,
        turns::LATE_REFUSAL,
        turns::LATE_BY_FEW,
        turns::FEW_CUTS,
        turns::SHORT_512,
    ];
    assert_eq!(all.kinds(rows - 1, Some(rows)), short);
    let half = [turns::LATE_REFUSAL, turns::LATE_BY_FEW, turns::FEW_CUTS];
    assert_eq!(all.kinds(rows / 2, Some(rows)), half);
    let one_match_less = turns::of(&matches[..32], &[], rows);
    let few_matches = one_match_less.kinds(rows - 1, Some(rows - 1));
    assert_eq!(few_matches, [turns::EXACT_512]);
}

/// Ten cuts or more walk at once among 33 matches, over none of which every 32nd tells.
#[test]
fn late_turns_of_more_cuts() {
    let mut matches: Vec<Match> = single_letters(800, 1).collect();
    matches.extend([direct(0, 0, 400), direct(0, 12, 400)]);
    matches.extend((0..5).map(|n| direct(1 + 2 * n, 600 + 2 * n, 1)));
    matches.extend(single_letters(900, 25));
    let all = turns::of(&matches, &[], 1_000);
    let rows = least(&matches, &[], 1_000).expect("pieces").len();
    let kinds = all.kinds(rows - 20, Some(rows));
    assert_eq!(
        kinds,
        [
            turns::LATE_REFUSAL,
            turns::LATE_BY_MORE,
            turns::MORE_CUTS,
            turns::UNTOLD
        ]
    );
}

/// 64 matches slide over each other: their ends alone make more than 100 pieces, as two of them show.
#[test]
fn early_refusals() {
    let matches: Vec<Match> = (0..64).map(|n| direct(n, 2 * n, 1_000)).collect();
    let all = turns::of(&matches, &[], 100);
    assert_eq!(all.turns.len(), 1);
    let kinds = all.kinds(100, None);
    assert_eq!(kinds, [turns::EARLY_REFUSAL, turns::TOLD]);
}

/// The first match spans all ends of the others, which span few.
#[test]
fn told_in_vain() {
    let others = (0..63).map(|n| direct(1 + 3 * n, 2_000 + 3 * n, 1));
    let matches: Vec<Match> = [direct(0, 0, 1_000)].into_iter().chain(others).collect();
    let rows = 2 * 63 + 1 + 63;
    let all = turns::of(&matches, &[], rows);
    let kinds = all.kinds(rows, Some(rows));
    assert_eq!(kinds, [turns::TOLD_IN_VAIN]);
}

/// Five letters cut a stretch; four steps later forty equal matches carry the cuts, while single letters have
/// taken places. With twice as many rows there is room.
#[test]
fn notes_that_give_way() {
    let step = |n: u64| direct(n.div_ceil(2) * 20, n / 2 * 20, 20);
    let mut matches: Vec<Match> = (0..5).map(step).collect();
    matches.extend([step(4); 40]);
    matches.extend((0..5).map(|n| direct(1 + 3 * n, 200 + 2 * n, 1)));
    matches.extend(single_letters(300, 180));
    let rows = least(&matches, &[], 10_000).expect("pieces").len();
    let all = turns::of(&matches, &[], rows);
    assert!(all.kinds(rows, Some(rows)).contains(&turns::NOTES_GIVE_WAY));
    assert!(!all
        .kinds(2 * rows, Some(rows))
        .contains(&turns::NOTES_GIVE_WAY));
}

/// The pieces that were found once serve every table.
#[test]
fn pieces_found_once() {
    let matches = zigzag(4);
    let pieces = least(&matches, &[], 100);
    for capacity in [0, 1, 7, 8, 9, 20] {
        let answers = [false, true].map(|once| {
            let (mut table, mut work) = (vec![7; 5 * capacity + 3], vec![7; 4 * capacity + 1]);
            let answer = if once {
                let within = |rows| pieces.clone().filter(|pieces| pieces.len() <= rows);
                refine_admitted(within, &mut table, &mut work)
            } else {
                refine_admitted(|rows| least(&matches, &[], rows), &mut table, &mut work)
            };
            (answer, table, work)
        });
        assert_eq!(answers[0], answers[1]);
        assert_eq!(answers[1].0.is_ok(), capacity >= 8);
    }
}
