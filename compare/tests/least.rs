//! The slow program's refinement against the words of 01 and of #106, by trying every refinement there is.

use compare::random::Random;
use compare::slow::carrying::Side;
use compare::slow::refinement::{least, Piece};
use compare::slow::script::{Mark, Match};

const LETTERS: u32 = 5;

/// Of all refinements that are resolved, ours has the fewest pieces, and no other has as few.
#[test]
fn least_of_all_resolved_refinements() {
    let mut random = Random::from_seed(1);
    for _ in 0..2_000 {
        let matches = tiny_matches(&mut random);
        assert_least(&matches, &[]);
    }
}

/// The same among those that have all spanned marks among their cuts. The marks often make a difference, and often not.
#[test]
fn least_of_all_that_have_the_marks() {
    let mut random = Random::from_seed(106);
    let (mut more, mut as_many) = (0, 0);
    for _ in 0..4_000 {
        let matches = tiny_matches(&mut random);
        let count = random.count_between(1, 4);
        let marks: Vec<Mark> = (0..count).map(|_| tiny_mark(&mut random)).collect();
        let with = assert_least(&matches, &marks);
        let without = assert_least(&matches, &[]);
        more += usize::from(with > without);
        as_many += usize::from(with == without);
    }
    assert!(more > 500 && as_many > 500, "{more} {as_many}");
}

/// "A mark that some match spans must be a cut; others change nothing."
#[test]
fn each_mark_alone() {
    let mut random = Random::from_seed(206);
    for _ in 0..500 {
        let matches = tiny_matches(&mut random);
        let unmarked = least(&matches, &[], usize::MAX).expect("a refinement");
        for side in [Side::A, Side::B] {
            for position in 0..=LETTERS.into() {
                let mark = Mark { side, position };
                let marked = least(&matches, &[mark], usize::MAX).expect("a refinement");
                if is_spanned(&mark, &matches) {
                    assert!(cuts(&marked, side).contains(&position));
                } else {
                    assert_eq!(marked, unmarked);
                }
            }
        }
    }
}

/// Holds ours to all there are. It gives the fewest pieces.
fn assert_least(matches: &[Match], marks: &[Mark]) -> usize {
    let ours = least(matches, marks, usize::MAX).expect("a refinement");
    let mut resolved = all_refinements(matches);
    resolved.retain(|pieces| is_resolved(pieces) && has_the_marks(pieces, matches, marks));
    let fewest = resolved.iter().map(Vec::len).min().expect("single letters");
    resolved.retain(|pieces| pieces.len() == fewest);
    assert_eq!(
        resolved,
        std::slice::from_ref(&ours),
        "{matches:?} {marks:?}"
    );
    assert_eq!(least(matches, marks, fewest), Some(ours));
    let one_less = fewest.checked_sub(1);
    let too_few = one_less.and_then(|most| least(matches, marks, most));
    assert_eq!(too_few, None);
    fewest
}

/// "a resolved refinement has all spanned marks among its cuts"
fn has_the_marks(pieces: &[Piece], matches: &[Match], marks: &[Mark]) -> bool {
    marks
        .iter()
        .all(|mark| !is_spanned(mark, matches) || cuts(pieces, mark.side).contains(&mark.position))
}

/// By some match on the mark's own side, its ends included.
fn is_spanned(mark: &Mark, matches: &[Match]) -> bool {
    matches.iter().any(|m| {
        let left = match mark.side {
            Side::A => m.left_a,
            Side::B => m.left_b,
        };
        left <= mark.position && mark.position <= left + m.length
    })
}

fn tiny_mark(random: &mut Random) -> Mark {
    Mark {
        side: random.one_of(&[Side::A, Side::B]),
        position: random.between(0, LETTERS).into(),
    }
}

fn tiny_matches(random: &mut Random) -> Vec<Match> {
    let count = random.count_between(0, 3);
    (0..count).map(|_| tiny_match(random)).collect()
}

fn tiny_match(random: &mut Random) -> Match {
    let length = random.between(1, LETTERS);
    Match {
        left_a: random.between(0, LETTERS - length).into(),
        left_b: random.between(0, LETTERS - length).into(),
        length: length.into(),
        reversed: random.any_bool(),
    }
}

/// "A refinement tiles each match by its own pieces, without overlap."
fn all_refinements(matches: &[Match]) -> Vec<Vec<Piece>> {
    (1..)
        .zip(matches)
        .fold(vec![vec![]], |before, (number, m)| {
            let tilings = all_tilings(number, m);
            let and_a_tiling = |pieces: &Vec<Piece>| {
                let join = |tiling: &Vec<Piece>| [pieces.as_slice(), tiling].concat();
                tilings.iter().map(join).collect::<Vec<_>>()
            };
            before.iter().flat_map(and_a_tiling).collect()
        })
}

/// A bit of `chosen` for each place between two letters of the match.
fn all_tilings(number: u32, m: &Match) -> Vec<Vec<Piece>> {
    let tiling = |chosen: u64| {
        let inner = (1..m.length).filter(|inside| chosen >> (inside - 1) & 1 == 1);
        let ends: Vec<u64> = [0].into_iter().chain(inner).chain([m.length]).collect();
        let pieces = ends
            .windows(2)
            .map(|pair| piece(number, m, pair[0], pair[1]));
        pieces.collect()
    };
    (0..1 << (m.length - 1)).map(tiling).collect()
}

/// Letters `from` to `to` of a match, counted on A.
fn piece(number: u32, m: &Match, from: u64, to: u64) -> Piece {
    let inside_on_b = if m.reversed { m.length - to } else { from };
    Piece {
        number,
        left_a: m.left_a + from,
        left_b: m.left_b + inside_on_b,
        length: to - from,
        reversed: m.reversed,
    }
}

/// "It is resolved if no cut lies strictly inside any piece's stretch on that side."
fn is_resolved(pieces: &[Piece]) -> bool {
    [Side::A, Side::B].into_iter().all(|side| {
        let mut stretches = pieces.iter().map(|piece| stretch(piece, side));
        let cuts = cuts(pieces, side);
        stretches.all(|(left, right)| cuts.iter().all(|&cut| cut <= left || right <= cut))
    })
}

/// "The cuts on a side are all ends of all pieces there."
fn cuts(pieces: &[Piece], side: Side) -> Vec<u64> {
    let ends = |piece| {
        let (left, right) = stretch(piece, side);
        [left, right]
    };
    pieces.iter().flat_map(ends).collect()
}

fn stretch(piece: &Piece, side: Side) -> (u64, u64) {
    let left = match side {
        Side::A => piece.left_a,
        Side::B => piece.left_b,
    };
    (left, left + piece.length)
}
