//! 02, #101, "Scripts from our own lists": the script of a list of matches, and the list of a script. Since #106
//! there is a second list, of marks.

use super::carrying::Side;
use super::refusal::{Refusal, Word};
use super::script::{self, Mark, Match, Script};
use super::script::{DIRECT, END, LENGTHS, MARK, REVERSED};
use super::script::{LONGEST_SEQUENCE, MOST_MARKS, MOST_MATCHES};

/// "records of four 32-bit numbers"
pub const NUMBERS_OF_A_RECORD: usize = 4;

/// "(left-A, left-B, length, direction 0 or 1)"
type Record = [u32; NUMBERS_OF_A_RECORD];

/// "a second list of side and position"
pub const NUMBERS_OF_A_MARK: usize = 2;

type MarkRecord = [u32; NUMBERS_OF_A_MARK];

/// "A writer takes p, q and records of four 32-bit numbers [..] and fills a lent byte buffer." #106: "Writers take
/// marks as a second list". It gives the length of the script, which stands at the buffer's start.
pub fn write(
    p: u32,
    q: u32,
    records: &[u32],
    marks: &[u32],
    script: &mut [u8],
) -> Result<usize, Refusal> {
    let (records, marks) = judged(p, q, records, marks)?;
    let bytes = script_of(p, q, records, marks);
    has_room(script, &bytes)?;
    fill(script, &bytes);
    Ok(bytes.len())
}

/// "A reader back into records is added, with the reader's refusals." It gives the script, whose
/// records and marks stand at the starts of their buffers.
pub fn read_records(
    bytes: &[u8],
    records: &mut [u32],
    marks: &mut [u32],
) -> Result<Script, Refusal> {
    let script = script::read(bytes)?;
    let of_matches: Vec<u32> = script.matches.iter().flat_map(record_of).collect();
    let of_marks: Vec<u32> = script.marks.iter().flat_map(mark_record_of).collect();
    has_room(records, &of_matches)?;
    has_room(marks, &of_marks)?;
    fill(records, &of_matches);
    fill(marks, &of_marks);
    Ok(script)
}

/// The records and the marks that these numbers are, if a script can be written of them. "The writer's place is
/// the record counted from 1, or 0 for what comes before any record (5, the count, 6)"; marks are "numbered on
/// from the matches".
fn judged<'a>(
    p: u32,
    q: u32,
    numbers: &'a [u32],
    mark_numbers: &'a [u32],
) -> Result<(&'a [Record], &'a [MarkRecord]), Refusal> {
    let [p, q] = [p, q].map(u64::from);
    for letters in [p, q] {
        if letters == 0 || letters > LONGEST_SEQUENCE {
            return Err(Refusal::of_the_call(Word::LengthOutOfRange));
        }
    }
    // "15 if the count of numbers isn't a multiple of four (after 5, before 6)", "15 also if its count of numbers
    // is odd"
    let (records, others) = numbers.as_chunks();
    let (marks, other) = mark_numbers.as_chunks();
    if !others.is_empty() || !other.is_empty() {
        return Err(Refusal::of_the_call(Word::MalformedRecords));
    }
    if records.len() > MOST_MATCHES {
        return Err(Refusal::of_the_call(Word::TooManyMatches));
    }
    // "19 after 6"
    if marks.len() > MOST_MARKS {
        return Err(Refusal::of_the_call(Word::TooManyMarks));
    }
    let of_records = records.iter().map(|record| fault_of(record, p, q));
    let of_marks = marks.iter().map(|mark| fault_of_mark(mark, p, q));
    for (place, fault) in (1..).zip(of_records.chain(of_marks)) {
        if let Some(word) = fault {
            return Err(Refusal { word, place });
        }
    }
    Ok((records, marks))
}

/// The first fault of a record. "15 if [..] a direction is above 1 (first check at a record, before
/// 7)", and from there on as "at a match: [..] 7, 8, 9".
fn fault_of(record: &Record, p: u64, q: u64) -> Option<Word> {
    let [left_a, left_b, length, direction] = record.map(u64::from);
    if direction > 1 {
        return Some(Word::MalformedRecords);
    }
    if length == 0 {
        return Some(Word::EmptyMatch);
    }
    if left_a + length > p {
        return Some(Word::BeyondA);
    }
    if left_b + length > q {
        return Some(Word::BeyondB);
    }
    None
}

/// The first fault of a mark. "20 if the side is above 1; 21 if the position is past p on A or q on B"
fn fault_of_mark(mark: &MarkRecord, p: u64, q: u64) -> Option<Word> {
    let [side, position] = mark.map(u64::from);
    if side > 1 {
        return Some(Word::NoSuchSide);
    }
    let letters = if side == 0 { p } else { q };
    if position > letters {
        return Some(Word::MarkBeyond);
    }
    None
}

/// Lengths, a match for each record, a mark for each mark, end: marks are "written after" the matches.
fn script_of(p: u32, q: u32, records: &[Record], marks: &[MarkRecord]) -> Vec<u8> {
    let mut bytes = command(LENGTHS, &[p, q]);
    for &[left_a, left_b, length, direction] in records {
        let byte = if direction == 0 { DIRECT } else { REVERSED };
        bytes.extend(command(byte, &[left_a, left_b, length]));
    }
    for &[side, position] in marks {
        bytes.extend([MARK, side as u8]);
        bytes.extend(position.to_le_bytes());
    }
    bytes.extend(command(END, &[]));
    bytes
}

/// 01: "A command is one byte [..] with operands of fixed width", "four bytes, least byte first."
fn command(byte: u8, operands: &[u32]) -> Vec<u8> {
    let mut bytes = vec![byte];
    for operand in operands {
        bytes.extend(operand.to_le_bytes());
    }
    bytes
}

fn record_of(m: &Match) -> Record {
    let [left_a, left_b, length] = [m.left_a, m.left_b, m.length].map(|number| number as u32);
    [left_a, left_b, length, m.reversed.into()]
}

fn mark_record_of(mark: &Mark) -> MarkRecord {
    let side = match mark.side {
        Side::A => 0,
        Side::B => 1,
    };
    [side, mark.position as u32]
}

/// Both calls: "16 if a lent buffer is too short, last of all."
fn has_room<T>(lent: &[T], numbers: &[T]) -> Result<(), Refusal> {
    if lent.len() < numbers.len() {
        return Err(Refusal::of_the_call(Word::BufferTooShort));
    }
    Ok(())
}

/// What stands behind in a longer buffer is kept.
fn fill<T: Copy>(lent: &mut [T], numbers: &[T]) {
    lent[..numbers.len()].copy_from_slice(numbers);
}
