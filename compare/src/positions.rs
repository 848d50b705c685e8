//! How the positions of a list lie on their match, and how many numbers are lent for them, found from the call itself:
//! a program that tests, counts or carries another part of the list answers such a call otherwise.

use crate::slow::carrying::Side;
use crate::slow::refusal::{Refusal, Word};
use crate::slow::script::Match;
use std::collections::BTreeSet;

pub const REFUSED_AND_DIFFERENT: &str = "a refused script, and counts that differ";
pub const REFUSED_AND_EMPTY: &str = "a refused script, no position and no number";

pub const NO_MATCH_AND_DIFFERENT: &str = "13, and counts that differ";
pub const NO_MATCH_AND_EMPTY: &str = "13 for no position and no number";

pub const ONE_TOO_FEW: &str = "22 for one number too few";
pub const ONE_TOO_MANY: &str = "22 for one number too many";
pub const TWICE_AS_MANY: &str = "22 for twice as many numbers and more";
pub const SOME_INTO_NONE: &str = "22 for positions and no number";
pub const NONE_INTO_SOME: &str = "22 for numbers and no position";
pub const DIFFERENT_AND_ON: &str = "22, and all positions on the match";
pub const DIFFERENT_AND_OFF: &str = "22, and a position off the match";
pub const OFF_PAST_THE_NUMBERS: &str = "22, and positions off the match only past the numbers";

pub const FIRST_OFF: &str = "14 for the first of several alone";
pub const MIDDLE_OFF: &str = "14 for one in the middle alone";
pub const LAST_OFF: &str = "14 for the last of several alone";
pub const ONE_OFF: &str = "14 for the only position";
pub const SEVERAL_OFF: &str = "14 for several positions";
pub const BEFORE_THE_LEFT_END: &str = "14 for the position before the left end alone";
pub const BEHIND_THE_RIGHT_END: &str = "14 for the position behind the right end alone";
pub const ON_B_ALONE: &str = "14 from A for positions that are on the match on B";
pub const ON_A_ALONE: &str = "14 from B for positions that are on the match on A";
pub const LARGEST: &str = "14 for 4,294,967,295 alone";

pub const NONE_INTO_NONE: &str = "no position into no number";
pub const ONE: &str = "one position carried";
pub const DIRECT: &str = "several carried over a direct match";
pub const REVERSED: &str = "several carried over a reversed match";
pub const DIRECTION_TELLS: &str = "carried otherwise than in the other direction";
pub const OFF_ON_B: &str = "carried from A, and one off the match on B";
pub const OFF_ON_A: &str = "carried from B, and one off the match on A";
pub const LEFT_END: &str = "the left end among those carried";
pub const RIGHT_END: &str = "the right end among those carried";
pub const EVERY: &str = "every position of the match carried";
pub const REPEATED: &str = "a position carried twice";
pub const OUT_OF_ORDER: &str = "carried, neither rising nor falling";
pub const HUNDREDS: &str = "a hundred carried and more";

/// The kinds of a call, each with a number: where the first position off the match stands in the list, from 0, or how
/// many positions there are.
pub fn of(
    found: &Result<Match, Refusal>,
    side: Side,
    positions: &[u32],
    room: usize,
) -> Vec<(&'static str, usize)> {
    let count = positions.len();
    let list = found.map(|m| Listed::of(m, side, positions));
    let (number, kinds) = match &list {
        Err(refusal) => (count, without_a_match(*refusal, count, room)),
        Ok(list) if count != room => (count, list.of_another_count(room)),
        Ok(list) => match list.off.first() {
            Some(&first) => (first, list.of_some_off()),
            None => (count, list.of_all_on()),
        },
    };
    let of_call = kinds.into_iter().filter(|(_, is)| *is);
    of_call.map(|(kind, _)| (kind, number)).collect()
}

type Kinds = Vec<(&'static str, bool)>;

fn without_a_match(refusal: Refusal, count: usize, room: usize) -> Kinds {
    let [different, empty] = match refusal.word {
        Word::NoSuchMatch => [NO_MATCH_AND_DIFFERENT, NO_MATCH_AND_EMPTY],
        _ => [REFUSED_AND_DIFFERENT, REFUSED_AND_EMPTY],
    };
    vec![(different, count != room), (empty, count == 0 && room == 0)]
}

/// A list of positions beside the match that is to carry them.
struct Listed {
    m: Match,
    from: Side,
    to: Side,
    positions: Vec<u64>,
    /// Where positions off the match stand in the list, from 0.
    off: Vec<usize>,
}

impl Listed {
    fn of(m: Match, from: Side, positions: &[u32]) -> Listed {
        let positions: Vec<u64> = positions.iter().map(|&h| h.into()).collect();
        let is_off = |&at: &usize| !m.span(from).contains(&positions[at]);
        let off = (0..positions.len()).filter(is_off).collect();
        Listed {
            m,
            from,
            to: other(from),
            positions,
            off,
        }
    }

    /// So many numbers are lent, and not as many as there are positions.
    fn of_another_count(&self, room: usize) -> Kinds {
        let count = self.positions.len();
        let first_off = self.off.first();
        let off_past = first_off.is_some_and(|&at| at >= room && room > 0);
        vec![
            (ONE_TOO_FEW, room + 1 == count),
            (ONE_TOO_MANY, room == count + 1),
            (TWICE_AS_MANY, count > 0 && room >= 2 * count),
            (SOME_INTO_NONE, room == 0),
            (NONE_INTO_SOME, count == 0),
            (DIFFERENT_AND_ON, count > 0 && first_off.is_none()),
            (DIFFERENT_AND_OFF, first_off.is_some()),
            (OFF_PAST_THE_NUMBERS, off_past),
        ]
    }

    fn of_some_off(&self) -> Kinds {
        let last = self.positions.len() - 1;
        let alone = (self.off.len() == 1).then(|| self.off[0]);
        let alone_is = |h: u64| alone.is_some_and(|at| self.positions[at] == h);
        let (left, right) = self.m.span(self.from).into_inner();
        let to_span = self.m.span(self.to);
        let only_there = self
            .off
            .iter()
            .all(|&at| to_span.contains(&self.positions[at]));
        vec![
            (FIRST_OFF, last > 0 && alone == Some(0)),
            (MIDDLE_OFF, alone.is_some_and(|at| at > 0 && at < last)),
            (LAST_OFF, last > 0 && alone == Some(last)),
            (ONE_OFF, last == 0),
            (SEVERAL_OFF, alone.is_none()),
            (BEFORE_THE_LEFT_END, left > 0 && alone_is(left - 1)),
            (BEHIND_THE_RIGHT_END, alone_is(right + 1)),
            (LARGEST, alone_is(u32::MAX.into())),
            (ON_B_ALONE, only_there && self.to == Side::B),
            (ON_A_ALONE, only_there && self.to == Side::A),
        ]
    }

    fn of_all_on(&self) -> Kinds {
        let all = &self.positions;
        let (left, right) = self.m.span(self.from).into_inner();
        let to_span = self.m.span(self.to);
        let off_there = all.iter().any(|h| !to_span.contains(h));
        // The middle is carried alike in both directions.
        let direction_tells = all.iter().any(|h| h - left != right - h);
        let rising = all.is_sorted();
        let falling = all.is_sorted_by(|h, next| h >= next);
        let different = all.iter().collect::<BTreeSet<_>>().len();
        vec![
            (NONE_INTO_NONE, all.is_empty()),
            (ONE, all.len() == 1),
            (DIRECT, all.len() > 1 && !self.m.reversed),
            (REVERSED, all.len() > 1 && self.m.reversed),
            (DIRECTION_TELLS, direction_tells),
            (OFF_ON_B, off_there && self.to == Side::B),
            (OFF_ON_A, off_there && self.to == Side::A),
            (LEFT_END, all.contains(&left)),
            (RIGHT_END, all.contains(&right)),
            (EVERY, different as u64 == self.m.length + 1),
            (REPEATED, different < all.len()),
            (OUT_OF_ORDER, !rising && !falling),
            (HUNDREDS, all.len() >= 100),
        ]
    }
}

pub fn other(side: Side) -> Side {
    match side {
        Side::A => Side::B,
        Side::B => Side::A,
    }
}
