//! The best chain of a finished table in plain Rust: in n log n steps, and in n².
//!
//! Rows of a resolved table are equal or share no letter on a side, so that one may follow another if both its left
//! ends are larger. The best chain from each row on is found from the right end of A to the left, and of equal ones
//! it is enough to go on with the lowest row number.

use compare::slow::table::NUMBERS_OF_A_ROW;
use std::cmp::Reverse;

/// A score, and the row numbers from 1.
#[derive(Debug, PartialEq, Eq)]
pub struct Chain {
    pub score: u64,
    pub rows: Vec<u32>,
}

/// A direct row.
#[derive(Clone, Copy)]
struct Piece {
    row: u32,
    left_a: u32,
    left_b: u32,
    length: u32,
    /// How many different left ends on B are larger.
    larger: u32,
}

impl Piece {
    fn lefts(&self) -> i64 {
        i64::from(self.left_a) + i64::from(self.left_b)
    }
}

/// Something that a piece is chosen for, most of it first, and of equals the lowest row: in the upper 64 bits how much
/// it is, then the row, all bits turned, then the piece's place.
type Choice = i128;

/// The place behind a chain's last piece.
const END: u32 = u32::MAX;
/// Worse than any piece to go on with.
const NONE: Choice = Choice::MIN;
/// The empty chain, which scores 0.
const EMPTY: Choice = END as Choice;

fn choice(amount: i64, piece: &Piece, place: u32) -> Choice {
    (Choice::from(amount) << 64) | (Choice::from(!piece.row) << 32) | Choice::from(place)
}

fn amount_and_place(choice: Choice) -> (i64, u32) {
    ((choice >> 64) as i64, choice as u32)
}

/// The pieces to go on with.
trait Followers {
    /// The best of those that may follow the piece. They are chosen for what the chain from them on scores, less the
    /// price of all letters to their left.
    fn best_after(&self, piece: &Piece) -> Choice;
    fn add(&mut self, piece: &Piece, worth: Choice);
}

/// In n log n steps.
#[inline(never)]
pub fn best_chain(table: &[u32], price: u32) -> Chain {
    let mut pieces = direct_pieces(table);
    let lefts = rank_by_b(&mut pieces);
    chain_with(pieces, price, Tree::of(lefts))
}

/// In n² steps.
#[inline(never)]
pub fn best_chain_of_pairs(table: &[u32], price: u32) -> Chain {
    let pieces = direct_pieces(table);
    let followers = Vec::with_capacity(pieces.len());
    chain_with(pieces, price, followers)
}

fn direct_pieces(table: &[u32]) -> Vec<Piece> {
    let rows = (1..).zip(table.chunks_exact(NUMBERS_OF_A_ROW));
    let direct = rows.filter(|(_, row)| row[4] == 0);
    direct
        .map(|(number, row)| Piece {
            row: number,
            left_a: row[1],
            left_b: row[2],
            length: row[3],
            larger: 0,
        })
        .collect()
}

/// Gives each piece its rank, and says how many there are. A match's pieces rise, which the standard stable sort
/// makes use of, here and below.
fn rank_by_b(pieces: &mut [Piece]) -> usize {
    let lefts = pieces.iter().map(|piece| piece.left_b);
    let mut order: Vec<(Reverse<u32>, u32)> = lefts.map(Reverse).zip(0..).collect();
    order.sort_by_key(|&(left, _)| left);
    let mut larger = 0;
    let mut last = order.first().map(|&(left, _)| left);
    for (left, place) in order {
        if last != Some(left) {
            larger += 1;
            last = Some(left);
        }
        pieces[place as usize].larger = larger;
    }
    larger as usize + 1
}

fn chain_with(mut pieces: Vec<Piece>, price: u32, mut followers: impl Followers) -> Chain {
    // Of one left end on A none may follow another: those that are done before have no larger left end on B.
    pieces.sort_by_key(|piece| (Reverse(piece.left_a), piece.left_b));
    let price = i64::from(price);
    let mut next = Vec::with_capacity(pieces.len());
    let mut first = EMPTY;
    for (place, piece) in (0..).zip(&pieces) {
        let (worth, follower) = amount_and_place(followers.best_after(piece));
        let length = i64::from(piece.length);
        let gain = worth + price * (piece.lefts() + 2 * length);
        next.push(if gain > 0 { follower } else { END });
        let score = length + gain.max(0);
        followers.add(piece, choice(score - price * piece.lefts(), piece, place));
        first = first.max(choice(score, piece, place));
    }
    let (score, mut place) = amount_and_place(first);
    let mut rows = Vec::new();
    while place != END {
        rows.push(pieces[place as usize].row);
        place = next[place as usize];
    }
    Chain {
        score: score as u64,
        rows,
    }
}

/// A Fenwick tree over the ranks: number i, from 1, has the best of as many ranks up to i as its lowest bit says.
struct Tree {
    best: Vec<Choice>,
}

impl Tree {
    fn of(ranks: usize) -> Tree {
        Tree {
            best: vec![NONE; ranks + 1],
        }
    }
}

impl Followers for Tree {
    fn best_after(&self, piece: &Piece) -> Choice {
        let mut best = NONE;
        let mut i = piece.larger as usize;
        while i > 0 {
            best = best.max(self.best[i]);
            i &= i - 1;
        }
        best
    }

    fn add(&mut self, piece: &Piece, worth: Choice) {
        let mut i = piece.larger as usize + 1;
        // What is no better here is no better in a number that has these ranks among others.
        while i < self.best.len() && self.best[i] < worth {
            self.best[i] = worth;
            i += i & i.wrapping_neg();
        }
    }
}

/// All of them, each with its left end on B.
impl Followers for Vec<(u32, Choice)> {
    fn best_after(&self, piece: &Piece) -> Choice {
        let following = self.iter().filter(|&&(left_b, _)| left_b > piece.left_b);
        following.map(|&(_, worth)| worth).max().unwrap_or(NONE)
    }

    fn add(&mut self, piece: &Piece, worth: Choice) {
        self.push((piece.left_b, worth));
    }
}
