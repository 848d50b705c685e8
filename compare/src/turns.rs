//! In how many turns the cuts of a script are found, and how many in each, found from the matches
//! themselves: a program that goes on in another way after some turns, or with many cuts, must have met
//! scripts that have them.
//!
//! The ends on A and the spanned marks there are new at first. In a turn the new cuts of one side are carried to
//! the other, where those that were not known are the new ones; the sides take turns, A first. The spanned marks on
//! B are new there with what the first turn brings.

use crate::slow::carrying::Side;
use crate::slow::script::{Mark, Match};
use std::collections::BTreeSet;

pub const LATE_TABLE: &str = "33 matches and more, a table after 18 turns and more";
pub const LATE_AND_EXACT: &str = "33 matches and more, 18 turns and more, just enough rows";
pub const LATE_AND_SHORT: &str = "33 matches and more, one row short, told in turn 18 or later";
pub const LATE_REFUSAL: &str = "33 matches and more, too many pieces, told in turn 18 or later";
pub const LATE_BY_FEW: &str = "33 matches and more, too many pieces in a late turn of few cuts";
pub const LATE_BY_MORE: &str = "33 matches and more, too many pieces in a late turn of more cuts";
pub const EARLY_REFUSAL: &str = "33 matches and more, too many pieces in the first two turns";
pub const FEW_CUTS: &str = "33 matches and more, a late turn of few cuts";
pub const MORE_CUTS: &str = "33 matches and more, a late turn of more cuts";
pub const TOLD: &str = "33 matches and more, too many pieces, told by every 32nd match";
pub const UNTOLD: &str = "33 matches and more, too many pieces, not told by every 32nd match";
pub const TOLD_IN_VAIN: &str = "33 matches and more, every 32nd match tells too many, wrongly";
pub const NOTES_GIVE_WAY: &str = "notes of a side's cuts whose places a turn needs";
pub const EXACT_512: &str = "more than 512 cuts on a side, just enough rows";
pub const SHORT_512: &str = "more than 512 cuts on a side, one row short";
pub const EXACT_16384: &str = "more than 16,384 cuts on a side, just enough rows";
pub const SHORT_16384: &str = "more than 16,384 cuts on a side, one row short";
pub const EXACT_40000: &str = "more than 40,000 cuts on a side, just enough rows";
pub const SHORT_40000: &str = "more than 40,000 cuts on a side, one row short";

/// The proved program may index more matches than these, after so many turns. A later turn may go cut by
/// cut if it has few cuts: at most one to 16 matches are few here, and more than one to 4 are not.
const FEW_MATCHES: usize = 32;
const FIRST_TURNS: usize = 17;
const MATCHES_TO_FEW: usize = 16;
const MATCHES_TO_MORE: usize = 4;
/// It may look at each so manyth match for whether there are a sixteenth of the hits that have room.
const SAMPLED: usize = 32;
const SURELY: usize = 16;
/// So many cuts of a side may be worth notes.
const LEAST_NOTED: usize = 16;

#[derive(Clone, Copy, Debug, PartialEq, Eq)]
pub struct Turn {
    /// The cuts that are carried.
    pub new: usize,
    /// Pairs of such a cut and a match that spans it.
    pub hits: usize,
    /// Those of every 32nd match, from the first on.
    pub sampled: usize,
}

#[derive(Clone, Debug, PartialEq, Eq)]
pub struct Turns {
    pub matches: usize,
    pub turns: Vec<Turn>,
    /// On A and on B.
    pub cuts: [usize; 2],
}

/// The turns of a script with these matches and marks, up to one that makes more than `most` pieces certain.
pub fn of(matches: &[Match], marks: &[Mark], most: usize) -> Turns {
    let mut cuts = [BTreeSet::new(), BTreeSet::new()];
    cuts[0].extend(matches.iter().flat_map(|m| ends(m, Side::A)));
    cuts[0].extend(spanned(matches, marks, Side::A));
    let mut on_b = spanned(matches, marks, Side::B);
    let mut new: Vec<u64> = cuts[0].iter().copied().collect();
    let mut turns = Vec::new();
    let mut hits = [0; 2];
    let sides = [Side::A, Side::B].into_iter().enumerate().cycle();
    for (from, side) in sides {
        if new.is_empty() {
            break;
        }
        let mut carried = carried(&new, matches.iter(), side);
        let sampled = self::carried(&new, matches.iter().step_by(SAMPLED), side);
        turns.push(Turn {
            new: new.len(),
            hits: carried.len(),
            sampled: sampled.len(),
        });
        hits[from] += carried.len();
        if hits[from] > most + matches.len() {
            break;
        }
        carried.append(&mut on_b);
        let other = &mut cuts[1 - from];
        new = carried.into_iter().filter(|&h| other.insert(h)).collect();
        new.sort_unstable();
    }
    Turns {
        matches: matches.len(),
        turns,
        cuts: cuts.map(|cuts| cuts.len()),
    }
}

/// The marks on a side that some match spans.
fn spanned(matches: &[Match], marks: &[Mark], side: Side) -> Vec<u64> {
    let on_side = marks.iter().filter(|mark| mark.side == side);
    let spanned = on_side.filter(|mark| matches.iter().any(|m| mark.is_spanned_by(m)));
    spanned.map(|mark| mark.position).collect()
}

fn ends(m: &Match, side: Side) -> [u64; 2] {
    let span = m.span(side);
    [*span.start(), *span.end()]
}

/// What rising cuts of a side are carried to, once for each match that spans one.
fn carried<'a>(new: &[u64], matches: impl Iterator<Item = &'a Match>, side: Side) -> Vec<u64> {
    let mut carried = Vec::new();
    for m in matches {
        let [left, right] = ends(m, side);
        let first = new.partition_point(|&h| h < left);
        let spanned = new[first..].iter().take_while(|&&h| h <= right);
        carried.extend(spanned.map(|&h| m.carry(side, h)));
    }
    carried
}

/// A turn of a call, from 1, and how many hits its table has room for.
#[derive(Clone, Copy)]
struct Met {
    number: usize,
    turn: Turn,
    room: usize,
    notes_give_way: bool,
}

impl Met {
    fn is_too_many(&self) -> bool {
        self.turn.hits > self.room
    }

    fn is_late(&self) -> bool {
        self.number > FIRST_TURNS
    }

    fn is_told(&self) -> bool {
        self.turn.sampled > self.room / SURELY
    }
}

/// The cuts of a side, in two places for each row, and the places of the notes that it may have of them.
struct Places {
    all: usize,
    cuts: usize,
    notes: usize,
}

impl Places {
    fn of(capacity: usize) -> Places {
        Places {
            all: 2 * capacity,
            cuts: 0,
            notes: 0,
        }
    }

    /// Whether so many numbers have no room beside notes: sorting takes half as many places more.
    fn give_way(&mut self, hits: usize) -> bool {
        let wanted = self.cuts + hits + hits / 2;
        let give_way = self.notes > 0 && wanted > self.all - self.notes;
        if give_way {
            self.notes = 0;
        }
        give_way
    }

    /// The new cuts are carried. Notes are taken, unless these are the first: a place for each cut, where as
    /// many others are left and fewer than half have notes.
    fn carry(&mut self, new: usize) {
        let first = self.cuts == 0;
        self.cuts += new;
        let halves = self.cuts / 2;
        let room = self.all.saturating_sub(self.cuts) / 2;
        if !first && self.cuts >= LEAST_NOTED && halves > self.notes && room >= 2 * halves {
            self.notes = 2 * halves;
        }
    }
}

impl Turns {
    /// The turn, from 1, after which the cuts of a side make more pieces than `capacity`.
    pub fn until_too_many(&self, capacity: usize) -> Option<usize> {
        let last = self.met(capacity).pop();
        last.filter(Met::is_too_many).map(|last| last.number)
    }

    /// The turns up to one after which there are too many pieces. In the end the cuts in a match's span are
    /// one more than its pieces.
    fn met(&self, capacity: usize) -> Vec<Met> {
        let mut rooms = [capacity + self.matches; 2];
        let mut places = [Places::of(capacity), Places::of(capacity)];
        let mut met = Vec::new();
        for (number, &turn) in (1..).zip(&self.turns) {
            let from = number % 2;
            let room = rooms[from];
            let notes_give_way = places[1 - from].give_way(turn.hits.min(room));
            met.push(Met {
                number,
                turn,
                room,
                notes_give_way,
            });
            if turn.hits > room {
                break;
            }
            rooms[from] -= turn.hits;
            places[from].carry(turn.new);
        }
        met
    }

    /// The kinds of a call with a table of `capacity` rows, where `rows` are needed, or more than any
    /// table here has.
    pub fn kinds(&self, capacity: usize, rows: Option<usize>) -> Vec<&'static str> {
        let met = self.met(capacity);
        let refused = met.last().filter(|last| last.is_too_many());
        let by_few = |met: &Met| met.is_late() && met.turn.new <= self.matches / MATCHES_TO_FEW;
        let is_more = |met: &Met| met.turn.new > self.matches / MATCHES_TO_MORE;
        let by_more = |met: &Met| met.is_late() && is_more(met);
        let by_match = |met: &Met| !met.is_late() || is_more(met);
        let told = |met: &Met| by_match(met) && met.is_told();
        let untold = |met: &Met| by_match(met) && !met.is_told();
        let is_late = met.last().is_some_and(Met::is_late);
        let exact = rows == Some(capacity);
        let short = rows == Some(capacity + 1);
        let of_many_matches = [
            (LATE_TABLE, is_late && refused.is_none()),
            (LATE_AND_EXACT, is_late && exact),
            (LATE_AND_SHORT, is_late && short),
            (LATE_REFUSAL, refused.is_some_and(Met::is_late)),
            (LATE_BY_FEW, refused.is_some_and(by_few)),
            (LATE_BY_MORE, refused.is_some_and(by_more)),
            (EARLY_REFUSAL, refused.is_some_and(|met| met.number <= 2)),
            (FEW_CUTS, met.iter().any(by_few)),
            (MORE_CUTS, met.iter().any(by_more)),
            (TOLD, refused.is_some_and(told)),
            (UNTOLD, refused.is_some_and(untold)),
            (
                TOLD_IN_VAIN,
                met.iter().any(|met| told(met) && self.seems_too_many(met)),
            ),
        ];
        let of_all = [
            (NOTES_GIVE_WAY, met.iter().any(|met| met.notes_give_way)),
            (EXACT_512, exact && self.has_cuts_above(512)),
            (SHORT_512, short && self.has_cuts_above(512)),
            (EXACT_16384, exact && self.has_cuts_above(16_384)),
            (SHORT_16384, short && self.has_cuts_above(16_384)),
            (EXACT_40000, exact && self.has_cuts_above(40_000)),
            (SHORT_40000, short && self.has_cuts_above(40_000)),
        ];
        let many = self.matches > FEW_MATCHES;
        let of_many_matches = of_many_matches.into_iter().filter(|_| many);
        let of_call = of_many_matches.chain(of_all).filter(|(_, is)| *is);
        of_call.map(|(kind, _)| kind).collect()
    }

    /// The last cuts are found late, however many rows there are.
    pub fn are_late(&self) -> bool {
        self.turns.len() > FIRST_TURNS
    }

    /// There would be too many hits if each match spanned each cut, but there are not.
    fn seems_too_many(&self, met: &Met) -> bool {
        !met.is_too_many() && met.turn.new * self.matches > met.room
    }

    fn has_cuts_above(&self, count: usize) -> bool {
        self.cuts.iter().any(|&cuts| cuts > count)
    }
}
