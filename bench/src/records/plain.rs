//! Good plain Rust for lists: one pass that judges, and one that fills the buffer it is lent. A
//! match is judged as the plain reader judges it.

use crate::reader::plain::{
    in_range, judge, judge_mark, judge_match, read_mark, read_operands, Admitted,
};
use compare::slow::refusal::{Refusal, Word};
use compare::slow::script::{DIRECT, END, LENGTHS, MARK, MOST_MARKS, MOST_MATCHES, REVERSED};

/// Left-A, left-B, length and direction.
type Record = [u32; 4];
/// Side and position.
type MarkRecord = [u32; 2];

fn refused(word: Word, place: usize) -> Refusal {
    Refusal { word, place }
}

/// The bytes of a script with so many matches and marks.
pub const fn script_bytes(matches: usize, marks: usize) -> usize {
    10 + 13 * matches + 6 * marks
}

/// Writes the script of a list to the buffer's start, and gives its length.
#[inline(never)]
pub fn write(
    p: u32,
    q: u32,
    records: &[u32],
    marks: &[u32],
    script: &mut [u8],
) -> Result<usize, Refusal> {
    let (records, marks) = judge_list(p, q, records, marks)?;
    let length = script_bytes(records.len(), marks.len());
    let Some(script) = script.get_mut(..length) else {
        return Err(refused(Word::BufferTooShort, 0));
    };
    script[0] = LENGTHS;
    script[1..5].copy_from_slice(&p.to_le_bytes());
    script[5..9].copy_from_slice(&q.to_le_bytes());
    let (of_matches, rest) = script[9..].split_at_mut(13 * records.len());
    let (commands, _) = of_matches.as_chunks_mut();
    for (command, &record) in commands.iter_mut().zip(records) {
        write_match(record, command);
    }
    let (commands, end) = rest.as_chunks_mut();
    for (command, &mark) in commands.iter_mut().zip(marks) {
        write_mark(mark, command);
    }
    end[0] = END;
    Ok(length)
}

/// Writes the records and the marks of a script to the starts of their buffers.
#[inline(never)]
pub fn read(script: &[u8], records: &mut [u32], marks: &mut [u32]) -> Result<Admitted, Refusal> {
    let admitted = judge(script)?;
    let (records, _) = records.as_chunks_mut();
    let (marks, _) = marks.as_chunks_mut();
    let lent = (
        records.get_mut(..admitted.count),
        marks.get_mut(..admitted.mark_count),
    );
    let (Some(records), Some(marks)) = lent else {
        return Err(refused(Word::BufferTooShort, 0));
    };
    fill(&script[9..], records, marks);
    Ok(admitted)
}

/// Fills both from the commands of an admitted script.
fn fill(mut commands: &[u8], records: &mut [Record], marks: &mut [MarkRecord]) {
    let (mut records, mut marks) = (records.iter_mut(), marks.iter_mut());
    loop {
        if let [MARK, rest @ ..] = commands {
            let Some((operands, next)) = rest.split_first_chunk() else {
                return;
            };
            let mark = read_mark(operands);
            let Some(free) = marks.next() else { return };
            *free = [mark.side.into(), mark.position];
            commands = next;
        } else {
            let Some((command, next)) = commands.split_first_chunk() else {
                return;
            };
            let Some(free) = records.next() else { return };
            *free = read_match(command);
            commands = next;
        }
    }
}

fn judge_list<'a>(
    p: u32,
    q: u32,
    records: &'a [u32],
    marks: &'a [u32],
) -> Result<(&'a [Record], &'a [MarkRecord]), Refusal> {
    if !(in_range(p) && in_range(q)) {
        return Err(refused(Word::LengthOutOfRange, 0));
    }
    let (records, rest) = records.as_chunks();
    let (marks, rest_of_marks) = marks.as_chunks();
    if !(rest.is_empty() && rest_of_marks.is_empty()) {
        return Err(refused(Word::MalformedRecords, 0));
    }
    if records.len() > MOST_MATCHES {
        return Err(refused(Word::TooManyMatches, 0));
    }
    if marks.len() > MOST_MARKS {
        return Err(refused(Word::TooManyMarks, 0));
    }
    for (index, &record) in records.iter().enumerate() {
        if let Err(word) = judge_record(record, p, q) {
            return Err(refused(word, index + 1));
        }
    }
    for (index, &[side, position]) in marks.iter().enumerate() {
        if let Err(word) = judge_mark(side, position, p, q) {
            return Err(refused(word, records.len() + index + 1));
        }
    }
    Ok((records, marks))
}

fn judge_record([left_a, left_b, length, direction]: Record, p: u32, q: u32) -> Result<(), Word> {
    if direction > 1 {
        return Err(Word::MalformedRecords);
    }
    judge_match([left_a, left_b, length], p, q)
}

/// The command byte is reckoned, since a branch on the direction has its price.
fn write_match([left_a, left_b, length, direction]: Record, command: &mut [u8; 13]) {
    command[0] = DIRECT + direction as u8 * (REVERSED - DIRECT);
    command[1..5].copy_from_slice(&left_a.to_le_bytes());
    command[5..9].copy_from_slice(&left_b.to_le_bytes());
    command[9..].copy_from_slice(&length.to_le_bytes());
}

fn write_mark([side, position]: MarkRecord, command: &mut [u8; 6]) {
    command[0] = MARK;
    command[1] = side as u8;
    command[2..].copy_from_slice(&position.to_le_bytes());
}

fn read_match([command, operands @ ..]: &[u8; 13]) -> Record {
    let [left_a, left_b, length] = read_operands(operands);
    [left_a, left_b, length, u32::from(*command == REVERSED)]
}
