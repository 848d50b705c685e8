//! The scripts that are timed.

use compare::draft::{Draft, DraftMark, DraftMatch};
use compare::random::Random;
use compare::slow::script::{LONGEST_SEQUENCE, MOST_MARKS, MOST_MATCHES};

pub const P: u32 = LONGEST_SEQUENCE as u32;
pub const Q: u32 = P - 1;

/// Matches of both directions come in no order, so that a branch on the direction has its price.
pub const BOTH: [bool; 2] = [false, true];
const DIRECT_ONLY: [bool; 1] = [false];

/// Several scripts or lists of one kind: of a single one the processor would learn every branch.
pub struct Case<T> {
    pub name: String,
    pub matches: usize,
    pub inputs: Vec<T>,
    pub calls: usize,
}

pub fn all() -> Vec<Case<Vec<u8>>> {
    let mut random = Random::from_seed(2002);
    let admitted = [0, 10, 100, MOST_MATCHES].map(|matches| {
        let name = format!("{matches} matches");
        case(name, matches, || start(&mut random, matches, &BOTH).end())
    });
    let direct = case(
        format!("{MOST_MATCHES} direct matches"),
        MOST_MATCHES,
        || start(&mut random, MOST_MATCHES, &DIRECT_ONLY).end(),
    );
    let refused = case(
        format!("{MOST_MATCHES} matches, the last beyond B"),
        MOST_MATCHES,
        || {
            let good = start(&mut random, MOST_MATCHES - 1, &BOTH);
            good.direct(0, Q, 1).end()
        },
    );
    let marked = [(10, 3), (100, 25), (MOST_MATCHES, MOST_MARKS)];
    let mixed = marked.map(|(matches, marks)| {
        let name = format!("{matches} matches, {marks} marks mixed");
        case(name, matches, || {
            let (matches, marks) = good_lists(&mut random, matches, marks);
            mixed(&mut random, P, Q, &matches, &marks)
        })
    });
    let behind = case(
        format!("{MOST_MATCHES} matches, {MOST_MARKS} marks behind"),
        MOST_MATCHES,
        || {
            let draft = start(&mut random, MOST_MATCHES, &BOTH);
            let marking = |draft: Draft, _| draft.marking(good_mark(&mut random));
            (0..MOST_MARKS).fold(draft, marking).end()
        },
    );
    admitted
        .into_iter()
        .chain([direct, refused])
        .chain(mixed)
        .chain([behind])
        .collect()
}

pub fn case<T>(name: String, matches: usize, input: impl FnMut() -> T) -> Case<T> {
    Case {
        name,
        matches,
        inputs: std::iter::repeat_with(input).take(16).collect(),
        calls: 16 * (1 + 100 / (matches + 10)),
    }
}

/// Lengths and good matches, with no end yet.
fn start(random: &mut Random, matches: usize, directions: &[bool]) -> Draft {
    (0..matches).fold(Draft::lengths(P, Q), |draft, _| {
        draft.matching(good_match(random, directions))
    })
}

pub fn good_lists(
    random: &mut Random,
    matches: usize,
    marks: usize,
) -> (Vec<DraftMatch>, Vec<DraftMark>) {
    let matches = (0..matches).map(|_| good_match(random, &BOTH)).collect();
    let marks = (0..marks).map(|_| good_mark(random)).collect();
    (matches, marks)
}

/// The matches in their order and the marks in theirs, which stand anywhere among them.
pub fn mixed(
    random: &mut Random,
    p: u32,
    q: u32,
    matches: &[DraftMatch],
    marks: &[DraftMark],
) -> Vec<u8> {
    let mut is_mark = vec![false; matches.len()];
    is_mark.resize(matches.len() + marks.len(), true);
    random.shuffle(&mut is_mark);
    let mut matches = matches.iter().copied();
    let mut marks = marks.iter().copied();
    let next = |draft: Draft, is_mark| match is_mark {
        true => draft.marking(marks.next().expect("a mark")),
        false => draft.matching(matches.next().expect("a match")),
    };
    is_mark.into_iter().fold(Draft::lengths(p, q), next).end()
}

pub fn good_mark(random: &mut Random) -> DraftMark {
    let side = random.between(0, 1) as u8;
    DraftMark {
        side,
        position: random.between(0, [P, Q][usize::from(side)]),
    }
}

pub fn good_match(random: &mut Random, directions: &[bool]) -> DraftMatch {
    let length = random.between(1, 1_000_000);
    DraftMatch {
        left_a: random.between(0, P - length),
        left_b: random.between(0, Q - length),
        length,
        reversed: random.one_of(directions),
    }
}
