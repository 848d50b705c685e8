//! Good plain Rust readers: one pass over the bytes that keeps nothing, one match, or all of them in
//! fixed arrays. They are written to be fast, and they are others than the slow one of the comparison.

use compare::slow::refusal::{Refusal, Word};
use compare::slow::script::{
    DIRECT, END, LENGTHS, LONGEST_SEQUENCE, MARK, MOST_MARKS, MOST_MATCHES, REVERSED,
};

/// The matches and the marks of a script, a fixed array for each field.
pub struct Columns {
    pub left_a: [u32; MOST_MATCHES],
    pub left_b: [u32; MOST_MATCHES],
    pub length: [u32; MOST_MATCHES],
    pub reversed: [bool; MOST_MATCHES],
    pub side: [u8; MOST_MARKS],
    pub position: [u32; MOST_MARKS],
}

impl Columns {
    pub const ZEROS: Columns = Columns {
        left_a: [0; MOST_MATCHES],
        left_b: [0; MOST_MATCHES],
        length: [0; MOST_MATCHES],
        reversed: [false; MOST_MATCHES],
        side: [0; MOST_MARKS],
        position: [0; MOST_MARKS],
    };
}

/// What is known of an admitted script beside its matches and marks.
#[derive(Clone, Copy, Debug, PartialEq, Eq)]
pub struct Admitted {
    pub p: u32,
    pub q: u32,
    pub count: usize,
    pub mark_count: usize,
}

/// One match of a script.
#[derive(Clone, Copy, Debug, PartialEq, Eq)]
pub struct Match {
    pub left_a: u32,
    pub left_b: u32,
    pub length: u32,
    pub reversed: bool,
}

/// One mark of a script: 0 or 1 for A or B, and the position there.
#[derive(Clone, Copy, Debug, PartialEq, Eq)]
pub struct Mark {
    pub side: u8,
    pub position: u32,
}

/// What a command hands over, with its index among those of its kind.
pub enum Found {
    Match(usize, Match),
    Mark(usize, Mark),
}

/// Reads and keeps nothing.
#[inline(never)]
pub fn judge(script: &[u8]) -> Result<Admitted, Refusal> {
    read_with(script, |_| ())
}

/// Reads straight into `columns`. What stands before a fault stays there when it refuses.
#[inline(never)]
pub fn read(script: &[u8], columns: &mut Columns) -> Result<Admitted, Refusal> {
    read_with(script, |found| match found {
        Found::Match(index, found) => {
            columns.left_a[index] = found.left_a;
            columns.left_b[index] = found.left_b;
            columns.length[index] = found.length;
            columns.reversed[index] = found.reversed;
        }
        Found::Mark(index, mark) => {
            columns.side[index] = mark.side;
            columns.position[index] = mark.position;
        }
    })
}

/// Reads and keeps the match of this number.
#[inline(never)]
pub fn find(script: &[u8], number: u32) -> Result<Match, Refusal> {
    let mut kept = None;
    let index = (number as usize).wrapping_sub(1);
    read_with(script, |found| match found {
        Found::Match(here, found) if here == index => kept = Some(found),
        _ => (),
    })?;
    kept.ok_or(refused_call(Word::NoSuchMatch))
}

/// Where the match of this number carries a position of A.
#[inline(never)]
pub fn carry_from_a(script: &[u8], number: u32, position: u32) -> Result<u32, Refusal> {
    let found = find(script, number)?;
    let off = position.wrapping_sub(found.left_a);
    if off > found.length {
        return Err(refused_call(Word::OffTheMatch));
    }
    let along = if found.reversed {
        found.length - off
    } else {
        off
    };
    Ok(found.left_b + along)
}

fn refused_call(word: Word) -> Refusal {
    Refusal { word, place: 0 }
}

/// Reads and hands each match and each mark over, before it is known whether the script is admitted.
#[inline(always)]
pub fn read_with(script: &[u8], mut keep: impl FnMut(Found)) -> Result<Admitted, Refusal> {
    let (p, q) = read_lengths(script)?;
    let mut rest = &script[9..];
    let mut count = 0;
    let mut mark_count = 0;
    loop {
        let place = script.len() - rest.len();
        let refused = |word| Err(Refusal { word, place });
        let Some((&command, behind)) = rest.split_first() else {
            return refused(Word::CutShort);
        };
        match command {
            DIRECT | REVERSED => {
                if count >= MOST_MATCHES {
                    return refused(Word::TooManyMatches);
                }
                let Some((operands, next)) = behind.split_first_chunk() else {
                    return refused(Word::CutShort);
                };
                let [left_a, left_b, length] = read_operands(operands);
                if let Err(word) = judge_match([left_a, left_b, length], p, q) {
                    return refused(word);
                }
                let found = Match {
                    left_a,
                    left_b,
                    length,
                    reversed: command == REVERSED,
                };
                keep(Found::Match(count, found));
                count += 1;
                rest = next;
            }
            MARK => {
                if mark_count >= MOST_MARKS {
                    return refused(Word::TooManyMarks);
                }
                let Some((operands, next)) = behind.split_first_chunk() else {
                    return refused(Word::CutShort);
                };
                let mark = read_mark(operands);
                if let Err(word) = judge_mark(mark.side.into(), mark.position, p, q) {
                    return refused(word);
                }
                keep(Found::Mark(mark_count, mark));
                mark_count += 1;
                rest = next;
            }
            END if behind.is_empty() => {
                return Ok(Admitted {
                    p,
                    q,
                    count,
                    mark_count,
                })
            }
            END => {
                let place = place + 1;
                let word = Word::Tail;
                return Err(Refusal { word, place });
            }
            LENGTHS => return refused(Word::SecondLengths),
            _ => return refused(Word::UnknownCommand),
        }
    }
}

fn read_lengths(script: &[u8]) -> Result<(u32, u32), Refusal> {
    let refused = |word| Err(Refusal { word, place: 0 });
    let Some((&LENGTHS, behind)) = script.split_first() else {
        return refused(Word::Headless);
    };
    let Some(operands) = behind.first_chunk::<8>() else {
        return refused(Word::CutShort);
    };
    let p = number(operands, 0);
    let q = number(operands, 4);
    if in_range(p) && in_range(q) {
        Ok((p, q))
    } else {
        refused(Word::LengthOutOfRange)
    }
}

/// Whether a sequence may have so many letters.
pub fn in_range(letters: u32) -> bool {
    letters != 0 && u64::from(letters) <= LONGEST_SEQUENCE
}

/// The left ends and the length of a match.
pub fn read_operands(operands: &[u8; 12]) -> [u32; 3] {
    [0, 4, 8].map(|at| number(operands, at))
}

/// Judges the left ends and the length of a match between p letters and q.
pub fn judge_match([left_a, left_b, length]: [u32; 3], p: u32, q: u32) -> Result<(), Word> {
    if length == 0 {
        return Err(Word::EmptyMatch);
    }
    if u64::from(left_a) + u64::from(length) > u64::from(p) {
        return Err(Word::BeyondA);
    }
    if u64::from(left_b) + u64::from(length) > u64::from(q) {
        return Err(Word::BeyondB);
    }
    Ok(())
}

/// The side and the position of a mark.
pub fn read_mark([side, position @ ..]: &[u8; 5]) -> Mark {
    Mark {
        side: *side,
        position: u32::from_le_bytes(*position),
    }
}

/// Judges a mark between p letters and q. In a list its side is a number like any other.
pub fn judge_mark(side: u32, position: u32, p: u32, q: u32) -> Result<(), Word> {
    if side > 1 {
        return Err(Word::NoSuchSide);
    }
    if position > if side == 0 { p } else { q } {
        return Err(Word::MarkBeyond);
    }
    Ok(())
}

fn number(operands: &[u8], at: usize) -> u32 {
    u32::from_le_bytes(operands[at..at + 4].try_into().expect("four bytes"))
}
