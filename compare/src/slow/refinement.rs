//! 01, "Resolved refinement", with the marks of 02, #106: the least one, from the cuts on both sides.

use super::carrying::Side;
use super::script::{Mark, Match};
use std::collections::BTreeSet;

/// "A piece is a match number, a left-A, a left-B, a length of at least 1 and the match's
/// direction."
#[derive(Clone, Copy, Debug, PartialEq, Eq)]
pub struct Piece {
    pub number: u32,
    pub left_a: u64,
    pub left_b: u64,
    pub length: u64,
    pub reversed: bool,
}

/// The least resolved refinement in the table's order, or none if it has more than `most` pieces.
/// "begin with the ends of all matches. A new cut on A is carried over to B by every match that
/// spans it, and each new cut on B is carried over to A in the same way, until neither side gains
/// one." #106: "a resolved refinement has all spanned marks among its cuts, least and equal being judged
/// among such refinements only", so these marks are among the first cuts too.
///
/// The pieces are counted in the end, and on the way whenever the cuts have doubled: no cut is ever
/// taken away, so once they make too many pieces, they make too many in the end.
pub fn least(matches: &[Match], marks: &[Mark], most: usize) -> Option<Vec<Piece>> {
    let mut cuts = Cuts::ends_of(matches).with(&Cuts::spanned(marks, matches));
    let mut new = cuts.clone();
    let mut next_count = 0;
    loop {
        if new.is_empty() || cuts.len() >= next_count {
            if cuts.make_more_pieces_than(most, matches) {
                return None;
            }
            next_count = 2 * cuts.len();
        }
        if new.is_empty() {
            return Some(cuts.pieces(matches));
        }
        new = new.carried(matches).without(&cuts);
        cuts = cuts.with(&new);
    }
}

/// "The cuts on a side are all ends of all pieces there."
#[derive(Clone, Debug, Default)]
struct Cuts {
    a: BTreeSet<u64>,
    b: BTreeSet<u64>,
}

impl Cuts {
    fn ends_of(matches: &[Match]) -> Cuts {
        let ends = |side| {
            let spans = matches.iter().map(move |m| m.span(side));
            spans.flat_map(|span| [*span.start(), *span.end()])
        };
        Cuts {
            a: ends(Side::A).collect(),
            b: ends(Side::B).collect(),
        }
    }

    /// "A mark that some match spans must be a cut; others change nothing."
    fn spanned(marks: &[Mark], matches: &[Match]) -> Cuts {
        let mut cuts = Cuts::default();
        for mark in marks {
            if matches.iter().any(|m| mark.is_spanned_by(m)) {
                match mark.side {
                    Side::A => cuts.a.insert(mark.position),
                    Side::B => cuts.b.insert(mark.position),
                };
            }
        }
        cuts
    }

    fn len(&self) -> usize {
        self.a.len() + self.b.len()
    }

    fn is_empty(&self) -> bool {
        self.len() == 0
    }

    /// What these cuts are carried to, each by every match that spans it.
    fn carried(&self, matches: &[Match]) -> Cuts {
        let mut carried = Cuts::default();
        for m in matches {
            let to_b = self.in_span(m, Side::A).map(|h| m.carry(Side::A, h));
            carried.b.extend(to_b);
            let to_a = self.in_span(m, Side::B).map(|h| m.carry(Side::B, h));
            carried.a.extend(to_a);
        }
        carried
    }

    fn without(mut self, others: &Cuts) -> Cuts {
        self.a.retain(|cut| !others.a.contains(cut));
        self.b.retain(|cut| !others.b.contains(cut));
        self
    }

    fn with(mut self, others: &Cuts) -> Cuts {
        self.a.extend(&others.a);
        self.b.extend(&others.b);
        self
    }

    /// The cuts on a side that a match spans, rising.
    fn in_span(&self, m: &Match, side: Side) -> impl Iterator<Item = u64> + '_ {
        let cuts = match side {
            Side::A => &self.a,
            Side::B => &self.b,
        };
        cuts.range(m.span(side)).copied()
    }

    /// On either side: the cuts in a match's span are one more than the pieces they make of it.
    fn make_more_pieces_than(&self, most: usize, matches: &[Match]) -> bool {
        [Side::A, Side::B].into_iter().any(|side| {
            let mut pieces = 0;
            matches.iter().any(|m| {
                pieces += self.in_span(m, side).count() - 1;
                pieces > most
            })
        })
    }

    /// "Rows rise by match number, then by left-A."
    fn pieces(&self, matches: &[Match]) -> Vec<Piece> {
        let mut pieces = Vec::new();
        for (number, m) in (1..).zip(matches) {
            let cuts: Vec<u64> = self.in_span(m, Side::A).collect();
            for pair in cuts.windows(2) {
                pieces.push(piece_between(number, m, pair[0], pair[1]));
            }
        }
        pieces
    }
}

impl Mark {
    /// On the mark's own side, both ends included.
    pub fn is_spanned_by(&self, m: &Match) -> bool {
        m.span(self.side).contains(&self.position)
    }
}

/// "It must lie in that match, and its ends on A must carry to its ends on B."
fn piece_between(number: u32, m: &Match, left: u64, right: u64) -> Piece {
    let ends_on_b = [left, right].map(|h| m.carry(Side::A, h));
    Piece {
        number,
        left_a: left,
        left_b: ends_on_b[0].min(ends_on_b[1]),
        length: right - left,
        reversed: m.reversed,
    }
}
