//! Which right ends of a script's matches tell, found from the matches themselves: a program that has one
//! of them wrong makes another table of such a script.

use crate::slow::carrying::Side;
use crate::slow::script::Match;

pub const INSIDE_ON_A: &str = "a right end on A strictly inside another match";
pub const INSIDE_ON_B: &str = "a right end on B strictly inside another match";
pub const AT_AN_END: &str = "a right end where another match begins or ends";
pub const OF_THE_LAST: &str = "a right end of the last match alone inside another";
pub const APART_ON_B: &str = "a right end on B inside another, left-A plus length outside";

/// Every pair of matches is looked at: of more matches none is of a kind.
const FEW: usize = 64;

/// The kinds of a script with these matches.
pub fn of(matches: &[Match]) -> Vec<&'static str> {
    if matches.len() > FEW {
        return Vec::new();
    }
    let kinds = [
        (INSIDE_ON_A, any(matches, Side::A, inside)),
        (INSIDE_ON_B, any(matches, Side::B, inside)),
        (
            AT_AN_END,
            any(matches, Side::A, at_an_end) || any(matches, Side::B, at_an_end),
        ),
        (OF_THE_LAST, last_alone(matches)),
        (APART_ON_B, any_apart_on_b(matches)),
    ];
    let of_matches = kinds.into_iter().filter(|(_, is)| *is);
    of_matches.map(|(kind, _)| kind).collect()
}

fn any(matches: &[Match], side: Side, is: fn(u64, &Match, Side) -> bool) -> bool {
    pairs(matches).any(|(m, other)| is(right(m, side), other, side))
}

/// Each match with each other one.
fn pairs(matches: &[Match]) -> impl Iterator<Item = (&Match, &Match)> {
    let with_others = |(n, m)| {
        let others = matches.iter().enumerate().filter(move |(k, _)| *k != n);
        others.map(move |(_, other)| (m, other))
    };
    matches.iter().enumerate().flat_map(with_others)
}

fn right(m: &Match, side: Side) -> u64 {
    *m.span(side).end()
}

fn inside(position: u64, m: &Match, side: Side) -> bool {
    let span = m.span(side);
    span.contains(&position) && !at_an_end(position, m, side)
}

fn at_an_end(position: u64, m: &Match, side: Side) -> bool {
    let span = m.span(side);
    position == *span.start() || position == *span.end()
}

/// No other match has that end, so that its cut comes from there or by carrying.
fn last_alone(matches: &[Match]) -> bool {
    let Some((last, others)) = matches.split_last() else {
        return false;
    };
    [Side::A, Side::B].into_iter().any(|side| {
        let end = right(last, side);
        let met = others.iter().any(|m| at_an_end(end, m, side));
        !met && others.iter().any(|m| inside(end, m, side))
    })
}

fn any_apart_on_b(matches: &[Match]) -> bool {
    pairs(matches).any(|(m, other)| {
        let from_a = *m.span(Side::A).end();
        inside(right(m, Side::B), other, Side::B) && !other.span(Side::B).contains(&from_a)
    })
}
