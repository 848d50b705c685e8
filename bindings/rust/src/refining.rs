//! Refining: the piece table of a script, in memory of its own or in lent buffers.

use crate::door;
use crate::error::Error;
use crate::refusal::Refusal;
use crate::room::{room_for, start_of, with_growing_room};
use crate::table::{Table, ROW_NUMBERS};
use std::mem::size_of;

/// The numbers of work that refining needs for each row that the table has room for.
pub const WORK_NUMBERS: usize = 4;

/// The bytes that a row of room takes while a table is made: its numbers, and those of work.
pub(crate) const ROW_BYTES: usize = (ROW_NUMBERS + WORK_NUMBERS) * size_of::<u32>();

/// The piece table of a script, however many rows it has. Every mark that a match spans is a cut in it; see
/// [`Mark`](crate::Mark).
///
/// It makes room for 3,000 rows, and for twice as many as before as long as they are too few. This ends: a piece has at
/// least one letter, so that no table has more rows than all matches together have letters, and it never makes room for
/// more. While it runs, a row of room takes 36 bytes, and beyond 3,000 there is room for less than twice the rows that
/// are needed. Two matches can need nearly 2,000,000,000 rows, 72 GB: where scripts come from others, [`refine_within`]
/// sets a limit.
///
/// ```
/// let script = b"L\x05\0\0\0\x05\0\0\0D\0\0\0\0\0\0\0\0\x04\0\0\0D\0\0\0\0\x01\0\0\0\x04\0\0\0E";
/// let table = notchergrey::refine(script)?;
/// assert_eq!(table.len(), 8);
/// assert!(table.rows().all(|row| row.length == 1));
/// # Ok::<(), notchergrey::Error>(())
/// ```
///
/// # Errors
///
/// The refusals of [`read`](crate::read), as [`Error::Refused`]; [`Error::OutOfMemory`] if the allocator has no room
/// for the rows. A system that lends more memory than it has (Linux may) ends the program instead: only a limit is safe
/// against that.
pub fn refine(script: &[u8]) -> Result<Table, Error> {
    refine_within(script, usize::MAX)
}

/// The piece table of a script, if it has no more than so many rows. It makes room like [`refine`], and never for more
/// rows than these.
///
/// ```
/// use notchergrey::{refine_within, Word};
///
/// let script = b"L\x05\0\0\0\x05\0\0\0D\0\0\0\0\0\0\0\0\x04\0\0\0D\0\0\0\0\x01\0\0\0\x04\0\0\0E";
/// assert_eq!(refine_within(script, 8)?.len(), 8);
/// let refusal = refine_within(script, 7).unwrap_err().refusal();
/// assert_eq!(refusal.map(|refusal| refusal.word()), Some(Word::TooManyPieces));
/// # Ok::<(), notchergrey::Error>(())
/// ```
///
/// # Errors
///
/// Those of [`refine`], and 12 as [`Error::Refused`] if the table has more rows than these.
pub fn refine_within(script: &[u8], most_rows: usize) -> Result<Table, Error> {
    with_growing_room(script, most_rows, |rows| {
        let mut table = room_for(rows, ROW_NUMBERS)?;
        let mut work = room_for(rows, WORK_NUMBERS)?;
        let length = refine_into(script, &mut table, &mut work)?.len();
        Ok(Table::of_numbers(start_of(table, length)))
    })
}

/// Makes the piece table of a script in a lent table and returns the part of it that holds the rows, from its start.
/// Five numbers are room for a row, and `work` needs [`WORK_NUMBERS`] for each row of room. What the buffers hold
/// before does not matter. On success the table keeps its numbers behind the rows, and all of `work` is zero.
///
/// ```
/// use notchergrey::{refine_into, rows, ROW_NUMBERS, WORK_NUMBERS};
///
/// let mut table = [7; 10 * ROW_NUMBERS];
/// let mut work = [7; 10 * WORK_NUMBERS];
/// let script = b"L\x0a\0\0\0\x09\0\0\0D\0\0\0\0\x01\0\0\0\x06\0\0\0E";
/// let refined = refine_into(script, &mut table, &mut work)?;
/// assert_eq!(rows(refined).len(), 1);
/// assert_eq!(table[..7], [1, 0, 1, 6, 0, 7, 7]);
/// # Ok::<(), notchergrey::Refusal>(())
/// ```
///
/// # Errors
///
/// The refusals of [`read`](crate::read); then 11 if `work` is too short for the table, and 12 if the table is too
/// short for the rows. A refusal keeps both buffers, but under 12 all of `work` is zero.
pub fn refine_into<'table>(
    script: &[u8],
    table: &'table mut [u32],
    work: &mut [u32],
) -> Result<&'table [u32], Refusal> {
    let rows = door::refine(script, table, work)?;
    Ok(&table[..rows * ROW_NUMBERS])
}
