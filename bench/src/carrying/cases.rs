//! The lists that are carried.

use crate::reader::cases::{good_lists, mixed, P, Q};
use compare::random::Random;
use compare::slow::carrying::Side;
use compare::slow::script::{MOST_MARKS, MOST_MATCHES};
use std::iter;

const SHORT: usize = 1_000;
const LONG: usize = 1_000_000;
/// So few that a call for each of them takes little time, wherever the match stands.
const FEW: usize = 100;

/// A script, the number of a match, and positions on either side of it.
pub struct Call {
    pub script: Vec<u8>,
    pub number: u32,
    positions: [Vec<u32>; 2],
}

impl Call {
    pub fn positions(&self, side: Side) -> &[u32] {
        &self.positions[side as usize]
    }
}

/// Calls of one kind with lists of one length.
pub struct Case {
    pub name: String,
    pub positions: usize,
    /// The length of the buffer that is lent.
    pub room: usize,
    pub inputs: Vec<Call>,
    pub calls: usize,
}

/// A script, by its counts, and the match that is asked for.
#[derive(Clone, Copy)]
struct Shape {
    name: &'static str,
    matches: usize,
    marks: usize,
    number: usize,
}

const ONLY: Shape = Shape {
    name: "1 match",
    matches: 1,
    marks: 0,
    number: 1,
};

const FIRST: Shape = Shape {
    name: "first of 2048",
    matches: MOST_MATCHES,
    marks: 0,
    number: 1,
};

const LAST: Shape = Shape {
    name: "last of 2048",
    number: MOST_MATCHES,
    ..FIRST
};

const MARKED: Shape = Shape {
    name: "last of 2048, 512 marks",
    marks: MOST_MARKS,
    ..LAST
};

const DIRECTIONS: [(&str, bool); 2] = [("direct", false), ("reversed", true)];

type Order = fn(&mut Random, &mut [u32]);
const SORTED: Order = |_, positions| positions.sort_unstable();
const SHUFFLED: Order = |random, positions| random.shuffle(positions);
const ORDERS: [(&str, Order); 2] = [("sorted", SORTED), ("shuffled", SHUFFLED)];

/// All positions are on the match. Beside long lists a script takes next to no time: there one with
/// many matches is enough.
pub fn carried() -> Vec<Case> {
    let mut random = Random::from_seed(2002);
    let random = &mut random;
    let mut cases = Vec::new();
    for shape in [ONLY, FIRST, LAST, MARKED] {
        cases.push(case(random, shape.name, shape, false, 0, SHUFFLED));
        for (direction, reversed) in DIRECTIONS {
            let name = format!("{}, {direction}", shape.name);
            cases.push(case(random, &name, shape, reversed, 1, SHUFFLED));
        }
        cases.extend(in_both_orders(random, shape, SHORT));
    }
    cases.extend(in_both_orders(random, ONLY, LONG));
    let name = format!("{}, reversed, shuffled", MARKED.name);
    cases.push(case(random, &name, MARKED, true, LONG, SHUFFLED));
    cases
}

fn in_both_orders(random: &mut Random, shape: Shape, positions: usize) -> Vec<Case> {
    let mut cases = Vec::new();
    for (direction, reversed) in DIRECTIONS {
        for (order_name, order) in ORDERS {
            let name = format!("{}, {direction}, {order_name}", shape.name);
            cases.push(case(random, &name, shape, reversed, positions, order));
        }
    }
    cases
}

/// Lists with one position off the match, or with a buffer of another length.
pub fn refused() -> Vec<Case> {
    let mut random = Random::from_seed(2002);
    let mut cases = Vec::new();
    for positions in [SHORT, LONG] {
        let mut drawn = |name| case(&mut random, name, ONLY, false, positions, SHUFFLED);
        for (name, index) in [
            ("the first off the match", 0),
            ("the middle one off the match", positions / 2),
            ("the last off the match", positions - 1),
        ] {
            let case = spoiled(drawn(name), index);
            let calls = calls(case.inputs.len(), ONLY, index);
            cases.push(Case { calls, ..case });
        }
        for (name, room) in [
            ("a buffer shorter by one", positions - 1),
            ("a buffer longer by one", positions + 1),
        ] {
            let case = drawn(name);
            let calls = calls(case.inputs.len(), ONLY, 0);
            cases.push(Case {
                room,
                calls,
                ..case
            });
        }
    }
    cases
}

/// These are carried position by position too.
pub fn other_ways() -> Vec<Case> {
    let mut random = Random::from_seed(2002);
    let shapes = [
        (ONLY, SHORT),
        (ONLY, LONG),
        (FIRST, FEW),
        (LAST, FEW),
        (MARKED, FEW),
    ];
    let drawn = shapes.map(|(shape, positions)| {
        let name = format!("{}, direct, shuffled", shape.name);
        case(&mut random, &name, shape, false, positions, SHUFFLED)
    });
    drawn.into()
}

/// Several calls of one kind, but of the long lists one: these do not fit into the nearest caches.
fn case(
    random: &mut Random,
    name: &str,
    shape: Shape,
    reversed: bool,
    positions: usize,
    order: Order,
) -> Case {
    let inputs = if positions < LONG { 16 } else { 1 };
    let drawn = iter::repeat_with(|| call(random, shape, reversed, positions, order));
    Case {
        name: name.into(),
        positions,
        room: positions,
        inputs: drawn.take(inputs).collect(),
        calls: calls(inputs, shape, positions),
    }
}

/// More of them for a short call, which goes through so many positions: looking at the clock takes time.
fn calls(inputs: usize, shape: Shape, positions: usize) -> usize {
    inputs * (4_000 / (shape.matches + positions + 10)).max(1)
}

fn call(random: &mut Random, shape: Shape, reversed: bool, positions: usize, order: Order) -> Call {
    let (mut matches, marks) = good_lists(random, shape.matches, shape.marks);
    let asked = &mut matches[shape.number - 1];
    asked.reversed = reversed;
    let length = asked.length;
    let lefts = [asked.left_a, asked.left_b];
    Call {
        script: mixed(random, P, Q, &matches, &marks),
        number: shape.number as u32,
        positions: lefts.map(|left| on_the_match(random, left, length, positions, order)),
    }
}

/// Both ends are among them, if there are two or more.
fn on_the_match(
    random: &mut Random,
    left: u32,
    length: u32,
    positions: usize,
    order: Order,
) -> Vec<u32> {
    let ends = [left, left + length].into_iter();
    let others = iter::repeat_with(|| random.between(left, left + length));
    let mut drawn: Vec<u32> = match positions {
        0 | 1 => others.take(positions).collect(),
        _ => ends.chain(others).take(positions).collect(),
    };
    order(random, &mut drawn);
    drawn
}

/// The position at this index of each list becomes the one just beyond the match.
fn spoiled(mut case: Case, index: usize) -> Case {
    for list in case.inputs.iter_mut().flat_map(|call| &mut call.positions) {
        let right_end = list.iter().copied().max().expect("a position");
        list[index] = right_end + 1;
    }
    case
}
