//! Piece tables: their rows, the rows of one match, and the summary.

use crate::door;
use std::slice::ChunksExact;

/// The numbers of a row: match number, left-A, left-B, length, direction (0 direct, 1 reversed).
pub const ROW_NUMBERS: usize = 5;

/// The classes of lengths that a summary counts.
pub const CLASSES: usize = 30;

/// A piece of a match: `length` letters from `left_a` on of A and from `left_b` on of B.
#[derive(Clone, Copy, Debug, PartialEq, Eq, Hash)]
pub struct Row {
    /// The number of the match, from 1.
    pub number: u32,
    /// The left end on A, counted from 0.
    pub left_a: u32,
    /// The left end on B, counted from 0.
    pub left_b: u32,
    /// The letters on each side.
    pub length: u32,
    /// The left end on A belongs to the right end on B.
    pub reversed: bool,
}

/// The rows that numbers of a table say, in order; see [`rows`].
#[derive(Clone, Debug)]
pub struct Rows<'a>(ChunksExact<'a, u32>);

/// The piece table of a script. Its rows rise by match number, then by left-A.
#[derive(Clone, Debug, PartialEq, Eq, Hash)]
pub struct Table {
    numbers: Vec<u32>,
}

/// What a table holds, in numbers.
#[derive(Clone, Copy, Debug, PartialEq, Eq, Hash)]
pub struct Summary {
    /// The count of pieces.
    pub pieces: usize,
    /// The count of distinct pieces: rows of the same left-A, left-B, length and direction are one, whatever their match
    /// numbers. A stretch and its mirror image are two.
    pub distinct: usize,
    /// The letters in at least one row's stretch: those of A first, then those of B. A letter under two rows counts
    /// once. Of a refined table, `covers[0]` of the `p` letters of A and `covers[1]` of the `q` of B are covered; see
    /// [`read`](crate::read).
    pub covers: [u64; 2],
    /// `classes[c]` counts the pieces whose length is at least 2^c and below 2^(c+1).
    pub classes: [usize; CLASSES],
}

/// The rows in a table's numbers. Up to four numbers at the end that form no row are ignored.
///
/// ```
/// let numbers = [1, 0, 3, 6, 0, 2, 6, 3, 2, 1];
/// let lengths: Vec<u32> = notchergrey::rows(&numbers).map(|row| row.length).collect();
/// assert_eq!(lengths, [6, 2]);
/// ```
pub fn rows(table: &[u32]) -> Rows<'_> {
    Rows(table.chunks_exact(ROW_NUMBERS))
}

/// The rows of one match: the very part of the table from the first row with that number through the rows with that
/// number that follow without a break, or the empty part at its start if there is none. Of a table that was refined
/// into a buffer, hand over the finished rows alone, as [`refine_into`](crate::refine_into) returns them.
///
/// ```
/// let table = [1, 0, 3, 6, 0, 2, 6, 3, 2, 1];
/// assert_eq!(notchergrey::rows_of(&table, 2), &table[5..]);
/// assert!(notchergrey::rows_of(&table, 3).is_empty());
/// ```
pub fn rows_of(table: &[u32], number: u32) -> &[u32] {
    let (start, end) = door::rows_of(table, number);
    &table[start..end]
}

/// Sums a table up. Of a table that was refined into a buffer, hand over the finished rows alone, as
/// [`refine_into`](crate::refine_into) returns them. Of tables that were refined it took 0.005 s for 100,000 rows and
/// 0.26 s for 1,000,000 where it was measured; of rows that touch no other one, in an order not by their left ends,
/// 0.05 s and 2.2 s. From some 100,000 rows on its time grows with their square.
///
/// ```
/// let summary = notchergrey::summary(&[1, 0, 3, 6, 0, 2, 0, 3, 6, 0, 3, 0, 3, 6, 1]);
/// assert_eq!((summary.pieces, summary.distinct), (3, 2));
/// assert_eq!(summary.covers, [6, 6]);
/// assert_eq!(summary.classes[2], 3);
/// ```
///
/// Where stretches overlap, on A here from 2 to 6 and on B from 3 to 6, each letter counts once. Left end and length
/// are added without a limit at 2^32, and a row of length 0 covers nothing.
///
/// ```
/// let summary = notchergrey::summary(&[1, 0, 0, 6, 0, 2, 2, 3, 5, 1]);
/// assert_eq!(summary.covers, [7, 8]);
///
/// let summary = notchergrey::summary(&[1, u32::MAX, 0, 6, 0, 2, 0, 9, 0, 0]);
/// assert_eq!(summary.covers, [6, 6]);
/// ```
pub fn summary(table: &[u32]) -> Summary {
    let (pieces, distinct, covers, classes) = door::summary(table);
    Summary {
        pieces,
        distinct,
        covers,
        classes,
    }
}

impl Row {
    fn of_numbers(numbers: &[u32]) -> Row {
        Row {
            number: numbers[0],
            left_a: numbers[1],
            left_b: numbers[2],
            length: numbers[3],
            reversed: numbers[4] != 0,
        }
    }
}

impl Table {
    /// `numbers` are whole rows.
    pub(crate) fn of_numbers(numbers: Vec<u32>) -> Table {
        Table { numbers }
    }

    /// The count of rows.
    pub fn len(&self) -> usize {
        self.numbers.len() / ROW_NUMBERS
    }

    /// A script without matches has a table without rows.
    pub fn is_empty(&self) -> bool {
        self.numbers.is_empty()
    }

    /// The row at this index, counted from 0.
    pub fn row(&self, index: usize) -> Option<Row> {
        self.rows().nth(index)
    }

    /// All rows, in order.
    pub fn rows(&self) -> Rows<'_> {
        rows(&self.numbers)
    }

    /// The numbers of all rows, five each.
    pub fn numbers(&self) -> &[u32] {
        &self.numbers
    }

    /// The rows of one match, as a part of [`numbers`](Table::numbers); see [`rows_of`].
    pub fn rows_of(&self, number: u32) -> &[u32] {
        rows_of(&self.numbers, number)
    }

    /// What the table holds, in numbers; see [`summary`], also for the time that it takes.
    pub fn summary(&self) -> Summary {
        summary(&self.numbers)
    }
}

impl<'a> IntoIterator for &'a Table {
    type Item = Row;
    type IntoIter = Rows<'a>;

    fn into_iter(self) -> Rows<'a> {
        self.rows()
    }
}

impl Iterator for Rows<'_> {
    type Item = Row;

    fn next(&mut self) -> Option<Row> {
        self.0.next().map(Row::of_numbers)
    }

    fn nth(&mut self, n: usize) -> Option<Row> {
        self.0.nth(n).map(Row::of_numbers)
    }

    fn size_hint(&self) -> (usize, Option<usize>) {
        self.0.size_hint()
    }
}

impl ExactSizeIterator for Rows<'_> {}
