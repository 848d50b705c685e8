//! The backbone of a script: the best chain of its direct pieces, in memory of its own or in lent buffers.

use crate::door;
use crate::error::Error;
use crate::refining::WORK_NUMBERS;
use crate::refusal::Refusal;
use crate::room::{room_for, start_of, with_growing_room};
use crate::table::{rows, Row, Table, ROW_NUMBERS};
use std::mem::size_of;

/// No gap price is higher.
pub const MOST_PRICE: u32 = 1_000;

/// The bytes that a row of room takes beside the table and its work: a number of the chain, and one of the scores.
pub(crate) const LINK_BYTES: usize = 2 * size_of::<u32>();

/// The backbone of a script, and the table of all its pieces; see [`backbone`].
#[derive(Clone, Debug, PartialEq, Eq, Hash)]
pub struct Backbone {
    score: u64,
    table: Table,
    chain: Vec<u32>,
}

/// The backbone of a script in lent buffers; see [`chain_into`].
#[derive(Clone, Copy, Debug, PartialEq, Eq, Hash)]
#[non_exhaustive]
pub struct Chained<'a> {
    /// The sum of the chain's lengths, less the gap price times the letters that it skips.
    pub score: u64,
    /// The part of the lent table that holds the rows of all pieces.
    pub table: &'a [u32],
    /// The part of the lent chain buffer that holds the numbers of the chain's rows, counted from 1.
    pub chain: &'a [u32],
}

/// The backbone of a script: the best run of direct pieces that are in the same order on both genomes.
///
/// A piece may follow another if its left end is at or past the other's right end, on A and on B. The score of such a
/// chain is the sum of its lengths, less `price` times the letters that are skipped on A and on B between neighbours.
/// No chain scores more than the backbone; among equals it is the one whose list of row numbers comes first. A script
/// without direct matches has an empty one, which scores 0.
///
/// It makes room like [`refine`](crate::refine), with 44 bytes for a row. Where scripts come from others,
/// [`backbone_within`] sets a limit.
///
/// ```
/// use notchergrey::{backbone, Match};
///
/// let direct = |left_a, left_b, length| Match { left_a, left_b, length, reversed: false };
/// let matches = [direct(0, 0, 2), direct(20, 20, 2), direct(4, 10, 3), direct(10, 4, 3)];
/// let script = notchergrey::write(40, 40, &matches, &[])?;
///
/// let best = backbone(&script, 0)?;
/// assert_eq!((best.score(), best.chain()), (7, &[1, 3, 2][..]));
/// let lefts: Vec<(u32, u32)> = best.rows().map(|row| (row.left_a, row.left_b)).collect();
/// assert_eq!(lefts, [(0, 0), (4, 10), (20, 20)]);
///
/// // Between any two of the four more letters are skipped than the second one has.
/// let best = backbone(&script, 1)?;
/// assert_eq!((best.score(), best.chain()), (3, &[3][..]));
/// # Ok::<(), notchergrey::Error>(())
/// ```
///
/// # Errors
///
/// Those of [`refine`](crate::refine); 17 as [`Error::Refused`] if the price is above [`MOST_PRICE`], and 12 if the
/// table has more than 4,294,967,295 rows, since a row number has 32 bits.
pub fn backbone(script: &[u8], price: u32) -> Result<Backbone, Error> {
    backbone_within(script, price, usize::MAX)
}

/// The backbone of a script, if its table has no more than so many rows. It makes room like [`backbone`], and never for
/// more rows than these.
///
/// ```
/// use notchergrey::{backbone_within, Word};
///
/// let script = b"L\x05\0\0\0\x05\0\0\0D\0\0\0\0\0\0\0\0\x04\0\0\0D\0\0\0\0\x01\0\0\0\x04\0\0\0E";
/// assert_eq!(backbone_within(script, 1, 8)?.chain(), [1, 2, 3, 4]);
/// let refusal = backbone_within(script, 1, 7).unwrap_err().refusal();
/// assert_eq!(refusal.map(|refusal| refusal.word()), Some(Word::TooManyPieces));
/// # Ok::<(), notchergrey::Error>(())
/// ```
///
/// # Errors
///
/// Those of [`backbone`], and 12 as [`Error::Refused`] if the table has more rows than these.
pub fn backbone_within(script: &[u8], price: u32, most_rows: usize) -> Result<Backbone, Error> {
    let most_rows = most_rows.min(u32::MAX as usize);
    with_growing_room(script, most_rows, |rows| {
        let mut table = room_for(rows, ROW_NUMBERS)?;
        let mut work = room_for(rows, WORK_NUMBERS)?;
        let mut chain = room_for(rows, 1)?;
        let mut scores = room_for(rows, 1)?;
        let made = chain_into(
            script,
            price,
            &mut table,
            &mut work,
            &mut chain,
            &mut scores,
        )?;
        let (score, table_len, length) = (made.score, made.table.len(), made.chain.len());
        Ok(Backbone {
            score,
            table: Table::of_numbers(start_of(table, table_len)),
            chain: start_of(chain, length),
        })
    })
}

/// Finds the [`backbone`] of a script in lent buffers. Five numbers of `table` are room for a row; for each row of room
/// `work` needs [`WORK_NUMBERS`], and `chain` and `scores` one each. What the buffers hold before does not matter. On
/// success `table` and `chain` keep their numbers behind the rows and behind the chain, and all of `work` and `scores`
/// is zero.
///
/// ```
/// use notchergrey::{chain_into, ROW_NUMBERS, WORK_NUMBERS};
///
/// let (mut table, mut work) = ([7; 10 * ROW_NUMBERS], [7; 10 * WORK_NUMBERS]);
/// let (mut chain, mut scores) = ([7; 10], [7; 10]);
/// let script = b"L\x0a\0\0\0\x09\0\0\0D\0\0\0\0\x01\0\0\0\x06\0\0\0E";
/// let made = chain_into(script, 1, &mut table, &mut work, &mut chain, &mut scores)?;
/// assert_eq!((made.score, made.chain), (6, &[1][..]));
/// assert_eq!(made.rows().next().map(|row| row.left_b), Some(1));
/// assert_eq!(chain[..2], [1, 7]);
/// # Ok::<(), notchergrey::Refusal>(())
/// ```
///
/// # Errors
///
/// In this order: the refusals of [`read`](crate::read); 11 if `work` is too short for the table; 17 if the price is
/// above [`MOST_PRICE`]; 18 if `chain` or `scores` is too short for the table, or the table has room for more than
/// 4,294,967,295 rows; 12 if the table is too short for the rows. A refusal keeps all buffers, but under 12 all of
/// `work` and `scores` is zero.
pub fn chain_into<'a>(
    script: &[u8],
    price: u32,
    table: &'a mut [u32],
    work: &mut [u32],
    chain: &'a mut [u32],
    scores: &mut [u32],
) -> Result<Chained<'a>, Refusal> {
    let (score, rows, length) = door::chain(script, price, table, work, chain, scores)?;
    Ok(Chained {
        score,
        table: &table[..rows * ROW_NUMBERS],
        chain: &chain[..length],
    })
}

impl Backbone {
    /// The sum of the chain's lengths, less the gap price times the letters that it skips.
    pub fn score(&self) -> u64 {
        self.score
    }

    /// The table of all pieces.
    pub fn table(&self) -> &Table {
        &self.table
    }

    /// The numbers of the chain's rows in the table, counted from 1, from the first row of the chain to its last. They
    /// need not rise.
    pub fn chain(&self) -> &[u32] {
        &self.chain
    }

    /// The rows of the chain, in its order.
    pub fn rows(&self) -> impl ExactSizeIterator<Item = Row> + '_ {
        rows_by_number(self.table.numbers(), &self.chain)
    }
}

impl<'a> Chained<'a> {
    /// The rows of the chain, in its order.
    pub fn rows(&self) -> impl ExactSizeIterator<Item = Row> + 'a {
        rows_by_number(self.table, self.chain)
    }
}

/// The rows of a table that have these numbers, counted from 1.
fn rows_by_number<'a>(
    table: &'a [u32],
    numbers: &'a [u32],
) -> impl ExactSizeIterator<Item = Row> + 'a {
    numbers.iter().map(|&number| {
        let row = rows(table).nth(number as usize - 1);
        row.expect("a chain has rows of its table")
    })
}
