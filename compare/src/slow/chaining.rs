//! 02, #104: "Backbone of a cross".

use super::refinement::{self, Piece};
use super::refusal::{Refusal, Word};
use super::script;
use super::table::{refine_admitted, NUMBERS_OF_A_ROW, WORK_OF_A_ROW};

/// "a gap price, 0 to 1,000"
pub const MOST_PRICE: u32 = 1_000;
/// "since a row number must fit 32 bits"
pub const MOST_CAPACITY: usize = 4_294_967_295;
/// With so many direct pieces all chains are gone through.
pub const MOST_ENUMERATED: usize = 14;

/// What success returns, and the chain.
#[derive(Clone, Debug, PartialEq, Eq)]
pub struct Chained {
    pub score: u64,
    pub rows: usize,
    /// Row numbers, from 1.
    pub chain: Vec<u32>,
}

/// The four buffers that the call is lent.
pub struct Buffers<'a> {
    pub table: &'a mut [u32],
    pub work: &'a mut [u32],
    pub chain: &'a mut [u32],
    pub scores: &'a mut [u32],
}

/// The call. "Errors: 17 [..]; 18 [..]; both in this order between 11 and 12."
pub fn chain(bytes: &[u8], price: u32, lent: Buffers) -> Result<Chained, Refusal> {
    let script = script::read(bytes)?;
    let capacity = lent.table.len() / NUMBERS_OF_A_ROW;
    if lent.work.len() < WORK_OF_A_ROW * capacity {
        return Err(Refusal::of_the_call(Word::WorkTooShort));
    }
    if price > MOST_PRICE {
        return Err(Refusal::of_the_call(Word::PriceTooHigh));
    }
    let shorter = lent.chain.len().min(lent.scores.len());
    if shorter < capacity || capacity > MOST_CAPACITY {
        return Err(Refusal::of_the_call(Word::ChainTooShort));
    }
    // "a score buffer [..] is zero after success and after 12"
    lent.scores.fill(0);
    let mut pieces = Vec::new();
    let least = |most| {
        pieces = refinement::least(&script.matches, &script.marks, most)?;
        Some(pieces.clone())
    };
    let rows = refine_admitted(least, lent.table, lent.work)?;
    let Backbone { score, chain, .. } = backbone(&pieces, price);
    lent.chain[..chain.len()].copy_from_slice(&chain);
    Ok(Chained { score, rows, chain })
}

/// The best chain, and what kind of choice it was.
#[derive(Clone, Debug, PartialEq, Eq)]
pub struct Backbone {
    pub score: u64,
    pub chain: Vec<u32>,
    /// How many chains score as much, where all were gone through.
    pub equals: Option<usize>,
    /// A chain that scores as much goes on where this one ends: by a link of exactly 0.
    pub goes_on: bool,
}

pub fn backbone(pieces: &[Piece], price: u32) -> Backbone {
    let direct = pieces.iter().filter(|piece| !piece.reversed).count();
    if direct <= MOST_ENUMERATED {
        of_all_chains(pieces, price)
    } else {
        from_each_piece(pieces, price)
    }
}

/// "if its left is at or past the other's right on A and on B"
fn follows(piece: &Piece, other: &Piece) -> bool {
    piece.left_a >= other.left_a + other.length && piece.left_b >= other.left_b + other.length
}

/// "a gap price [..] times the letters skipped on A and on B between neighbours"
fn gap(other: &Piece, piece: &Piece, price: u32) -> i64 {
    let skipped_a = piece.left_a - (other.left_a + other.length);
    let skipped_b = piece.left_b - (other.left_b + other.length);
    i64::from(price) * (skipped_a + skipped_b) as i64
}

// ---- all chains

/// "No chain scores more than the answer; among equals, the one whose list of row numbers (from 1)
/// comes first is given, compared number by number, a list before its own extensions. With no direct
/// piece the chain is empty and scores 0."
pub fn of_all_chains(pieces: &[Piece], price: u32) -> Backbone {
    let mut chains = vec![(0, Vec::new())];
    for row in 0..pieces.len() {
        chains_from(pieces, price, 0, &mut vec![row], &mut chains);
    }
    let most = chains
        .iter()
        .map(|(score, _)| *score)
        .max()
        .expect("the empty chain");
    let mut best: Vec<Vec<u32>> = chains
        .into_iter()
        .filter(|(score, _)| *score == most)
        .map(|(_, chain)| chain)
        .collect();
    // Vectors are compared number by number, and a vector is before its extensions.
    best.sort_unstable();
    let goes_on = best[1..].iter().any(|chain| chain.starts_with(&best[0]));
    Backbone {
        score: most as u64,
        equals: Some(best.len()),
        goes_on,
        chain: best.swap_remove(0),
    }
}

/// Puts the chain of `rows` and all that it is the beginning of behind the others, each with its
/// score. `before` is the score without the last row.
fn chains_from(
    pieces: &[Piece],
    price: u32,
    before: i64,
    rows: &mut Vec<usize>,
    chains: &mut Vec<(i64, Vec<u32>)>,
) {
    let last = &pieces[rows[rows.len() - 1]];
    if last.reversed {
        return;
    }
    let score = before + last.length as i64;
    chains.push((score, rows.iter().map(|&row| row as u32 + 1).collect()));
    for (row, piece) in pieces.iter().enumerate() {
        if follows(piece, last) {
            rows.push(row);
            chains_from(pieces, price, score - gap(last, piece, price), rows, chains);
            rows.pop();
        }
    }
}

// ---- more pieces than that: from each piece on

/// The best chain from each direct piece: those further right on A are done first, and a piece goes
/// on with the best of those that may follow it, of equals with the first, if that adds anything.
pub fn from_each_piece(pieces: &[Piece], price: u32) -> Backbone {
    let mut order: Vec<usize> = (0..pieces.len())
        .filter(|&row| !pieces[row].reversed)
        .collect();
    order.sort_by_key(|&row| std::cmp::Reverse(pieces[row].left_a));
    let mut scores = vec![0; pieces.len()];
    let mut next = vec![None; pieces.len()];
    let mut zero = vec![false; pieces.len()];
    for (done, &row) in order.iter().enumerate() {
        let mut sums: Vec<(i64, usize)> = Vec::new();
        for &other in &order[..done] {
            if follows(&pieces[other], &pieces[row]) {
                sums.push((
                    scores[other] - gap(&pieces[row], &pieces[other], price),
                    other,
                ));
            }
        }
        let most = sums.iter().map(|(sum, _)| *sum).max().unwrap_or(0).max(0);
        scores[row] = pieces[row].length as i64 + most;
        let best = sums.iter().filter(|(sum, _)| *sum == most);
        let first = best.map(|(_, other)| *other).min();
        next[row] = first.filter(|_| most > 0);
        zero[row] = most == 0 && first.is_some();
    }
    let most = order
        .iter()
        .map(|&row| scores[row])
        .max()
        .expect("direct pieces");
    let mut row = order.into_iter().filter(|&row| scores[row] == most).min();
    let (mut chain, mut goes_on) = (Vec::new(), false);
    while let Some(at) = row {
        chain.push(at as u32 + 1);
        goes_on = zero[at];
        row = next[at];
    }
    Backbone {
        score: most as u64,
        chain,
        equals: None,
        goes_on,
    }
}
