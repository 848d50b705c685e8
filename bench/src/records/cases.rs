//! The lists that are written and read back.

use crate::reader::cases::{case, good_lists, Case, P, Q};
use compare::draft::{Draft, DraftMark, DraftMatch};
use compare::random::Random;
use compare::slow::script::{MOST_MARKS, MOST_MATCHES};
use std::iter;

/// So many lists that the processor cannot learn the directions of their matches.
const UNLEARNED: usize = 256;

/// A list, and its script.
pub struct List {
    pub p: u32,
    pub q: u32,
    pub records: Vec<u32>,
    pub marks: Vec<u32>,
    pub script: Vec<u8>,
}

pub fn all() -> Vec<Case<List>> {
    let mut random = Random::from_seed(2002);
    let admitted = [0, 10, 100, MOST_MATCHES].map(|count| {
        let name = format!("{count} records");
        case(name, count, || good_list(&mut random, count, 0))
    });
    let unlearned = Case {
        name: format!("{MOST_MATCHES} records, {UNLEARNED} lists in turn"),
        matches: MOST_MATCHES,
        inputs: iter::repeat_with(|| good_list(&mut random, MOST_MATCHES, 0))
            .take(UNLEARNED)
            .collect(),
        calls: UNLEARNED,
    };
    let refused = case(
        format!("{MOST_MATCHES} records, the last beyond B"),
        MOST_MATCHES,
        || {
            let (mut matches, _) = good_lists(&mut random, MOST_MATCHES - 1, 0);
            matches.push(DraftMatch::direct(0, Q, 1));
            list(&matches, &[])
        },
    );
    let marked = [(10, 3), (MOST_MATCHES, MOST_MARKS)].map(|(count, marks)| {
        let name = format!("{count} records, {marks} marks");
        case(name, count, || good_list(&mut random, count, marks))
    });
    admitted
        .into_iter()
        .chain([unlearned, refused])
        .chain(marked)
        .collect()
}

fn good_list(random: &mut Random, count: usize, mark_count: usize) -> List {
    let (matches, marks) = good_lists(random, count, mark_count);
    list(&matches, &marks)
}

fn list(matches: &[DraftMatch], marks: &[DraftMark]) -> List {
    let start = Draft::lengths(P, Q);
    let draft = matches.iter().fold(start, |draft, &m| draft.matching(m));
    let draft = marks.iter().fold(draft, |draft, &m| draft.marking(m));
    let record = |m: &DraftMatch| [m.left_a, m.left_b, m.length, m.reversed.into()];
    let mark = |m: &DraftMark| [m.side.into(), m.position];
    List {
        p: P,
        q: Q,
        records: matches.iter().flat_map(record).collect(),
        marks: marks.iter().flat_map(mark).collect(),
        script: draft.end(),
    }
}
