//! 01, "The table and its buffers": the refining call, the pieces of one match, the summary, whose
//! letters are those of 02, #102, and whose distinct pieces are those of #105.

use super::carrying::Side;
use super::covers::{letters_in_some_row, Stretch};
use super::refinement::{self, Piece};
use super::refusal::{Refusal, Word};
use super::script;
use std::collections::{BTreeMap, BTreeSet};
use std::ops::Range;

/// "A row is five 32-bit numbers."
pub const NUMBERS_OF_A_ROW: usize = 5;
/// "The work buffer needs four numbers for each row of the capacity."
pub const WORK_OF_A_ROW: usize = 4;
/// "c from 0 to 29"
pub const CLASSES: usize = 30;

/// The refining call: the count of rows. "Refining: the script, 11, 12."
pub fn refine(bytes: &[u8], table: &mut [u32], work: &mut [u32]) -> Result<usize, Refusal> {
    let script = script::read(bytes)?;
    let least = |capacity| refinement::least(&script.matches, &script.marks, capacity);
    refine_admitted(least, table, work)
}

/// The same for an admitted script, whose least refinement `least` gives if it has at most so many
/// pieces: a run that lends many tables for one script finds its pieces once.
pub fn refine_admitted(
    least: impl FnOnce(usize) -> Option<Vec<Piece>>,
    table: &mut [u32],
    work: &mut [u32],
) -> Result<usize, Refusal> {
    let capacity = table.len() / NUMBERS_OF_A_ROW;
    if work.len() < WORK_OF_A_ROW * capacity {
        return Err(Refusal::of_the_call(Word::WorkTooShort));
    }
    // "The work buffer is all zero after success and after refusal 12."
    work.fill(0);
    let too_many_pieces = Refusal::of_the_call(Word::TooManyPieces);
    let pieces = least(capacity).ok_or(too_many_pieces)?;
    for (row, piece) in table.chunks_mut(NUMBERS_OF_A_ROW).zip(&pieces) {
        row.copy_from_slice(&numbers_of(piece));
    }
    Ok(pieces.len())
}

/// "match number, left-A, left-B, length, direction (0 direct, 1 reversed)"
fn numbers_of(piece: &Piece) -> [u32; NUMBERS_OF_A_ROW] {
    [
        piece.number,
        piece.left_a as u32,
        piece.left_b as u32,
        piece.length as u32,
        piece.reversed.into(),
    ]
}

/// The part of the table that holds the pieces of one match, counted in numbers: "from the first
/// row with that number, through the rows with that number following without a break; the empty
/// part at its start if there is none."
pub fn rows_of(table: &[u32], number: u32) -> Range<usize> {
    let mut part = 0..0;
    for (row, numbers) in rows(table).enumerate() {
        let found = !part.is_empty();
        if numbers[0] == number {
            if !found {
                part.start = row * NUMBERS_OF_A_ROW;
            }
            part.end = (row + 1) * NUMBERS_OF_A_ROW;
        } else if found {
            break;
        }
    }
    part
}

/// "numbers at the end that form no row are ignored"
fn rows(table: &[u32]) -> impl Iterator<Item = &[u32]> {
    table.chunks_exact(NUMBERS_OF_A_ROW)
}

#[derive(Clone, Debug, PartialEq, Eq)]
pub struct Summary {
    pub pieces: usize,
    pub distinct: usize,
    /// For A and for B.
    pub covers: [u64; 2],
    pub classes: [usize; CLASSES],
}

/// "The summary counts pieces, distinct pieces (same left-A, left-B and length), letters [..], and,
/// as thirty class counts beside them, the pieces whose length is at least 2^c and below 2^(c+1)".
/// "Letters counted once." "Direction counts in distinct."
pub fn summary(table: &[u32]) -> Summary {
    let lengths = || rows(table).map(|row| u64::from(row[3]));
    let mut classes = [0; CLASSES];
    for (c, count) in classes.iter_mut().enumerate() {
        let class = 1 << c..1 << (c + 1);
        *count = lengths().filter(|length| class.contains(length)).count();
    }
    Summary {
        pieces: rows(table).count(),
        distinct: distinct(table),
        covers: [Side::A, Side::B].map(|side| letters_in_some_row(&stretches(table, side))),
        classes,
    }
}

/// "Two pieces are now the same only if their directions agree too": those of each stretch by
/// their directions, which may be any numbers.
fn distinct(table: &[u32]) -> usize {
    let mut directions: BTreeMap<&[u32], BTreeSet<u32>> = BTreeMap::new();
    for row in rows(table) {
        directions.entry(&row[1..4]).or_default().insert(row[4]);
    }
    directions.values().map(BTreeSet::len).sum()
}

/// The letters of each row, whatever its direction.
pub fn stretches(table: &[u32], side: Side) -> Vec<Stretch> {
    let stretch = |row: &[u32]| {
        let left = u64::from(match side {
            Side::A => row[1],
            Side::B => row[2],
        });
        left..left + u64::from(row[3])
    };
    rows(table).map(stretch).collect()
}
