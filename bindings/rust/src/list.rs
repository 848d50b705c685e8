//! Lists of matches and marks: the script of a list, and the list of a script.

use crate::door;
use crate::refusal::Refusal;
use crate::script::{read, Mark, Match, Script, Side};
use crate::script::{MARK_BYTES, MATCH_BYTES, MOST_MARKS, MOST_MATCHES, SHORTEST_SCRIPT};

/// The numbers of a record, which is a match in a list: left-A, left-B, length, direction (0 direct, 1 reversed).
pub const RECORD_NUMBERS: usize = 4;

/// The numbers of a mark in a list: side (0 A, 1 B), position.
pub const MARK_NUMBERS: usize = 2;

/// What a script says, its matches and marks included.
#[derive(Clone, Debug, PartialEq, Eq, Hash)]
pub struct List {
    /// The letter count of sequence A.
    pub p: u32,
    /// The letter count of sequence B.
    pub q: u32,
    /// The matches, in the order of their numbers.
    pub matches: Vec<Match>,
    /// The marks, in the order of the script.
    pub marks: Vec<Mark>,
}

/// The script of a list: the letter counts of A and B, the matches, and the marks behind them. [`read_list`] undoes it.
///
/// ```
/// use notchergrey::{Mark, Match, Side};
///
/// let matches = [Match { left_a: 2, left_b: 3, length: 5, reversed: true }];
/// let marks = [Mark { side: Side::B, position: 4 }];
/// let script = notchergrey::write(10, 9, &matches, &marks)?;
/// assert_eq!(script, b"L\x0a\0\0\0\x09\0\0\0R\x02\0\0\0\x03\0\0\0\x05\0\0\0M\x01\x04\0\0\0E");
/// assert_eq!(notchergrey::refine(&script)?.len(), 2);
///
/// let refusal = notchergrey::write(10, 7, &matches, &marks).unwrap_err();
/// assert_eq!((refusal.number(), refusal.record()), (9, Some(1)));
/// let refusal = notchergrey::write(10, 3, &[], &marks).unwrap_err();
/// assert_eq!((refusal.number(), refusal.mark()), (21, Some(1)));
/// # Ok::<(), notchergrey::Error>(())
/// ```
///
/// # Errors
///
/// 5 for a letter count, 6 for more than 2,048 matches, and 19 for more than 512 marks; then, match by match, 7, 8 or
/// 9, where [`Refusal::record`] is the match, counted from 1; then, mark by mark, 21, where [`Refusal::mark`] is the
/// mark, counted from 1.
pub fn write(p: u32, q: u32, matches: &[Match], marks: &[Mark]) -> Result<Vec<u8>, Refusal> {
    // One too many is enough to refuse more.
    let matches = &matches[..matches.len().min(MOST_MATCHES + 1)];
    let marks = &marks[..marks.len().min(MOST_MARKS + 1)];
    let records: Vec<u32> = matches.iter().flat_map(Match::record).collect();
    let numbers: Vec<u32> = marks.iter().flat_map(Mark::numbers).collect();
    let bytes = SHORTEST_SCRIPT + matches.len() * MATCH_BYTES + marks.len() * MARK_BYTES;
    let mut script = vec![0; bytes];
    write_into(p, q, &records, &numbers, &mut script)?;
    Ok(script)
}

/// Writes the script of a list to the start of a lent buffer and returns the script's length: [`SHORTEST_SCRIPT`]
/// bytes, [`MATCH_BYTES`] for each match and [`MARK_BYTES`] for each mark. A match is a record, [`RECORD_NUMBERS`]
/// numbers; a mark has [`MARK_NUMBERS`]. The bytes behind the script are kept. [`read_records_into`] undoes it.
///
/// ```
/// use notchergrey::{write_into, MARK_BYTES, MATCH_BYTES, SHORTEST_SCRIPT};
///
/// let records = [0, 0, 6, 0, 2, 3, 5, 1];
/// let marks = [0, 1];
/// let mut script = [0; SHORTEST_SCRIPT + 2 * MATCH_BYTES + MARK_BYTES];
/// assert_eq!(write_into(10, 10, &records, &marks, &mut script)?, 42);
/// assert_eq!(notchergrey::read(&script)?.marks, 1);
/// # Ok::<(), notchergrey::Refusal>(())
/// ```
///
/// # Errors
///
/// In this order: 5 for a letter count; 15 if the numbers of the records are no multiple of four or those of the marks
/// are odd; 6 for more than 2,048 records; 19 for more than 512 marks; then, record by record, 15 for its direction, 7,
/// 8 or 9, where [`Refusal::record`] is the record, counted from 1; then, mark by mark, 20 for its side or 21, where
/// [`Refusal::mark`] is the mark, counted from 1; last of all 16 if the buffer is too short. A refusal keeps the
/// buffer.
pub fn write_into(
    p: u32,
    q: u32,
    records: &[u32],
    marks: &[u32],
    script: &mut [u8],
) -> Result<usize, Refusal> {
    door::write(p, q, records, marks, script)
}

/// The list of a script. Of a script that has all its matches before its marks, [`write()`] undoes it: it makes the
/// same script of this list, byte for byte. Of any other it makes one that says the same, with the marks behind.
///
/// ```
/// let script = b"L\x0a\0\0\0\x09\0\0\0D\0\0\0\0\x01\0\0\0\x06\0\0\0M\0\x03\0\0\0E";
/// let list = notchergrey::read_list(script)?;
/// assert_eq!((list.p, list.q, list.matches[0].left_b), (10, 9, 1));
/// assert_eq!(list.marks[0].position, 3);
/// assert_eq!(notchergrey::write(list.p, list.q, &list.matches, &list.marks)?, script);
/// # Ok::<(), notchergrey::Refusal>(())
/// ```
///
/// # Errors
///
/// The refusals of [`read`].
pub fn read_list(script: &[u8]) -> Result<List, Refusal> {
    let counts = read(script)?;
    let mut records = vec![0; counts.matches * RECORD_NUMBERS];
    let mut marks = vec![0; counts.marks * MARK_NUMBERS];
    let Script { p, q, .. } = read_records_into(script, &mut records, &mut marks)?;
    let matches = records.chunks_exact(RECORD_NUMBERS);
    let marks = marks.chunks_exact(MARK_NUMBERS);
    Ok(List {
        p,
        q,
        matches: matches.map(Match::of_record).collect(),
        marks: marks.map(Mark::of_numbers).collect(),
    })
}

/// Reads a script and writes the records of its matches, [`RECORD_NUMBERS`] numbers each, and its marks,
/// [`MARK_NUMBERS`] each, to the starts of two lent buffers. The numbers behind them are kept. [`write_into`] undoes it
/// where the script has all its matches before its marks.
///
/// ```
/// use notchergrey::{read_records_into, MARK_NUMBERS, MOST_MARKS, MOST_MATCHES, RECORD_NUMBERS};
///
/// let mut records = [7; MOST_MATCHES * RECORD_NUMBERS];
/// let mut marks = [7; MOST_MARKS * MARK_NUMBERS];
/// let script = b"L\x0a\0\0\0\x0a\0\0\0R\x02\0\0\0\x03\0\0\0\x05\0\0\0M\x01\x04\0\0\0E";
/// let read = read_records_into(script, &mut records, &mut marks)?;
/// assert_eq!((read.matches, read.marks), (1, 1));
/// assert_eq!(records[..5], [2, 3, 5, 1, 7]);
/// assert_eq!(marks[..3], [1, 4, 7]);
/// # Ok::<(), notchergrey::Refusal>(())
/// ```
///
/// # Errors
///
/// The refusals of [`read`]; then 16 if either buffer is too short. A refusal keeps both buffers.
pub fn read_records_into(
    script: &[u8],
    records: &mut [u32],
    marks: &mut [u32],
) -> Result<Script, Refusal> {
    door::read_records(script, records, marks)
}

impl Match {
    fn record(&self) -> [u32; RECORD_NUMBERS] {
        [
            self.left_a,
            self.left_b,
            self.length,
            u32::from(self.reversed),
        ]
    }

    fn of_record(record: &[u32]) -> Match {
        Match {
            left_a: record[0],
            left_b: record[1],
            length: record[2],
            reversed: record[3] != 0,
        }
    }
}

impl Mark {
    fn numbers(&self) -> [u32; MARK_NUMBERS] {
        let side = match self.side {
            Side::A => 0,
            Side::B => 1,
        };
        [side, self.position]
    }

    fn of_numbers(numbers: &[u32]) -> Mark {
        let side = if numbers[0] == 0 { Side::A } else { Side::B };
        Mark {
            side,
            position: numbers[1],
        }
    }
}
