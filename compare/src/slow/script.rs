//! 01, "The script": from bytes to a script, or to the first fault's refusal. Its marks are those of 02, #106,
//! "Marker positions as cuts".

use super::carrying::Side;
use super::refusal::{Refusal, Word};

/// "4C, lengths: p, then q."
pub const LENGTHS: u8 = 0x4C;
/// "44, direct match; 52, reversed match: left-A, left-B, length."
pub const DIRECT: u8 = 0x44;
pub const REVERSED: u8 = 0x52;
/// "45, end. No operand, nothing after it."
pub const END: u8 = 0x45;
/// "New command 4D, mark: one byte for the side (0 A, 1 B) and a position of four bytes"
pub const MARK: u8 = 0x4D;

/// "p and q are 1 to 1,000,000,000."
pub const LONGEST_SEQUENCE: u64 = 1_000_000_000;
/// "A script has 0 to 2,048 matches."
pub const MOST_MATCHES: usize = 2_048;
/// "0 to 512 marks, mixed with matches, without match numbers"
pub const MOST_MARKS: usize = 512;

/// An admitted script. Match number n of 01 is `matches[n - 1]`.
#[derive(Clone, Debug, PartialEq, Eq)]
pub struct Script {
    pub p: u64,
    pub q: u64,
    pub matches: Vec<Match>,
    /// In script order.
    pub marks: Vec<Mark>,
}

#[derive(Clone, Copy, Debug, PartialEq, Eq)]
pub struct Match {
    pub left_a: u64,
    pub left_b: u64,
    pub length: u64,
    pub reversed: bool,
}

#[derive(Clone, Copy, Debug, PartialEq, Eq)]
pub struct Mark {
    pub side: Side,
    pub position: u64,
}

impl Script {
    /// The match of this number: "Matches are numbered from 1 in script order."
    pub fn one_match(&self, number: u32) -> Result<Match, Refusal> {
        for (n, &m) in (1..).zip(&self.matches) {
            if n == number {
                return Ok(m);
            }
        }
        Err(Refusal::of_the_call(Word::NoSuchMatch))
    }
}

/// "Reading goes left to right; the first fault counts."
pub fn read(bytes: &[u8]) -> Result<Script, Refusal> {
    let mut cursor = Cursor { bytes, place: 0 };
    let mut script = read_lengths(&mut cursor)?;
    loop {
        let place = cursor.place;
        let refused = |word| Err(Refusal { word, place });
        match cursor.next_byte() {
            // "the script's length for bytes that ran out where a command was due"
            None => return refused(Word::CutShort),
            Some(LENGTHS) => return refused(Word::SecondLengths),
            Some(DIRECT) => read_match(&mut cursor, place, false, &mut script)?,
            Some(REVERSED) => read_match(&mut cursor, place, true, &mut script)?,
            Some(MARK) => read_mark(&mut cursor, place, &mut script)?,
            Some(END) => break,
            Some(_) => return refused(Word::UnknownCommand),
        }
    }
    // "the first extra byte for 10"
    let place = cursor.place;
    match cursor.next_byte() {
        None => Ok(script),
        Some(_) => Err(Refusal {
            word: Word::Tail,
            place,
        }),
    }
}

/// The first command, which must be lengths. Of "at lengths: 4, 3, 5" only 3 and 5 can come here.
fn read_lengths(cursor: &mut Cursor) -> Result<Script, Refusal> {
    let refused = |word| Refusal { word, place: 0 };
    if cursor.next_byte() != Some(LENGTHS) {
        return Err(refused(Word::Headless));
    }
    let p = cursor.next_number().ok_or(refused(Word::CutShort))?;
    let q = cursor.next_number().ok_or(refused(Word::CutShort))?;
    for letters in [p, q] {
        if letters == 0 || letters > LONGEST_SEQUENCE {
            return Err(refused(Word::LengthOutOfRange));
        }
    }
    Ok(Script {
        p,
        q,
        matches: Vec::new(),
        marks: Vec::new(),
    })
}

/// The match whose command byte stands at `place` and was just read. "At a match: 6, 3, 7, 8, 9."
fn read_match(
    cursor: &mut Cursor,
    place: usize,
    reversed: bool,
    script: &mut Script,
) -> Result<(), Refusal> {
    let refused = |word| Refusal { word, place };
    if script.matches.len() == MOST_MATCHES {
        return Err(refused(Word::TooManyMatches));
    }
    let left_a = cursor.next_number().ok_or(refused(Word::CutShort))?;
    let left_b = cursor.next_number().ok_or(refused(Word::CutShort))?;
    let length = cursor.next_number().ok_or(refused(Word::CutShort))?;
    if length == 0 {
        return Err(refused(Word::EmptyMatch));
    }
    if left_a + length > script.p {
        return Err(refused(Word::BeyondA));
    }
    if left_b + length > script.q {
        return Err(refused(Word::BeyondB));
    }
    script.matches.push(Match {
        left_a,
        left_b,
        length,
        reversed,
    });
    Ok(())
}

/// The mark whose command byte stands at `place` and was just read. "at a mark: 19, 3, 20, 21"
fn read_mark(cursor: &mut Cursor, place: usize, script: &mut Script) -> Result<(), Refusal> {
    let refused = |word| Refusal { word, place };
    if script.marks.len() == MOST_MARKS {
        return Err(refused(Word::TooManyMarks));
    }
    let side = cursor.next_byte().ok_or(refused(Word::CutShort))?;
    let position = cursor.next_number().ok_or(refused(Word::CutShort))?;
    let (side, letters) = match side {
        0 => (Side::A, script.p),
        1 => (Side::B, script.q),
        _ => return Err(refused(Word::NoSuchSide)),
    };
    if position > letters {
        return Err(refused(Word::MarkBeyond));
    }
    script.marks.push(Mark { side, position });
    Ok(())
}

/// The bytes of a script and the offset of the next one.
struct Cursor<'a> {
    bytes: &'a [u8],
    place: usize,
}

impl Cursor<'_> {
    fn next_byte(&mut self) -> Option<u8> {
        let byte = *self.bytes.get(self.place)?;
        self.place += 1;
        Some(byte)
    }

    /// "Numbers in a script are unsigned, four bytes, least byte first." They are kept in 64 bits,
    /// where no sum of two of them wraps.
    fn next_number(&mut self) -> Option<u64> {
        let mut number = 0;
        for weight in [1, 0x100, 0x1_0000, 0x100_0000] {
            number += weight * u64::from(self.next_byte()?);
        }
        Some(number)
    }
}
