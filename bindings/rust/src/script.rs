//! Scripts: what one says, one match of it, and positions carried over a match.

use crate::door;
use crate::refusal::Refusal;

/// No longer script is admitted, and the first 29,707 bytes of a longer one decide how it is refused: whoever reads a
/// script from a file needs no more of it.
pub const LONGEST_SCRIPT: usize = 29_706;

/// The bytes of a script without matches and marks. Each match adds [`MATCH_BYTES`], each mark [`MARK_BYTES`].
pub const SHORTEST_SCRIPT: usize = 10;

/// The bytes of a match in a script. Its last operand is its length.
pub const MATCH_BYTES: usize = 13;

/// The bytes of a mark in a script.
pub const MARK_BYTES: usize = 6;

/// No script and no list has more matches.
pub const MOST_MATCHES: usize = 2_048;

/// No script and no list has more marks.
pub const MOST_MARKS: usize = 512;

/// The bytes of the lengths, which come first.
const LENGTHS_BYTES: usize = 9;

/// The commands that are no match, behind the lengths.
const MARK: u8 = b'M';
const END: u8 = b'E';

/// What a script says beside its matches and marks.
#[derive(Clone, Copy, Debug, PartialEq, Eq, Hash)]
pub struct Script {
    /// The letter count of sequence A.
    pub p: u32,
    /// The letter count of sequence B.
    pub q: u32,
    /// The count of matches. They are numbered from 1.
    pub matches: usize,
    /// The count of marks.
    pub marks: usize,
}

/// A match: `length` letters from `left_a` on of A belong to as many from `left_b` on of B.
#[derive(Clone, Copy, Debug, PartialEq, Eq, Hash)]
pub struct Match {
    /// The left end on A, counted from 0.
    pub left_a: u32,
    /// The left end on B, counted from 0.
    pub left_b: u32,
    /// The letters on each side.
    pub length: u32,
    /// The left end on A belongs to the right end on B.
    pub reversed: bool,
}

/// One of the two sequences.
#[derive(Clone, Copy, Debug, PartialEq, Eq, Hash)]
pub enum Side {
    /// The sequence of p letters.
    A,
    /// The sequence of q letters.
    B,
}

/// A position that must be a cut, as that of a breeder's marker: no piece may have it inside.
///
/// It is a cut wherever some match spans it on its side, both ends of the match included, and is carried on like any
/// other cut. Where no match does, it changes nothing. Marks may repeat.
#[derive(Clone, Copy, Debug, PartialEq, Eq, Hash)]
pub struct Mark {
    /// The sequence that it is on.
    pub side: Side,
    /// The position between letters, counted from 0.
    pub position: u32,
}

/// Reads a script.
///
/// ```
/// let script = b"L\x0a\0\0\0\x09\0\0\0D\0\0\0\0\x01\0\0\0\x06\0\0\0M\0\x03\0\0\0E";
/// let read = notchergrey::read(script)?;
/// assert_eq!((read.p, read.q, read.matches, read.marks), (10, 9, 1, 1));
/// # Ok::<(), notchergrey::Refusal>(())
/// ```
///
/// # Errors
///
/// The refusals 1 to 10 and 19 to 21, of which the first from the left counts.
pub fn read(script: &[u8]) -> Result<Script, Refusal> {
    door::read(script)
}

/// One match of a script, by its number from 1.
///
/// ```
/// let script = b"L\x0a\0\0\0\x09\0\0\0R\0\0\0\0\x01\0\0\0\x06\0\0\0E";
/// let found = notchergrey::find_match(script, 1)?;
/// assert_eq!((found.left_a, found.left_b, found.length), (0, 1, 6));
/// assert!(found.reversed);
/// # Ok::<(), notchergrey::Refusal>(())
/// ```
///
/// # Errors
///
/// The refusals of [`read`], and 13 for a number that no match has. The script is read anew at every call.
pub fn find_match(script: &[u8], number: u32) -> Result<Match, Refusal> {
    let (left_a, left_b, length, reversed) = door::find_match(script, number)?;
    Ok(Match {
        left_a,
        left_b,
        length,
        reversed: reversed != 0,
    })
}

/// Carries a position of one side to the other, over the match of this number. Positions lie between letters, so that
/// both ends of the match can be carried. The script is read anew at every call: [`carry_all`] carries many positions
/// and reads it once.
///
/// ```
/// use notchergrey::{carry, Side};
///
/// let script = b"L\x0a\0\0\0\x0a\0\0\0R\x02\0\0\0\x03\0\0\0\x05\0\0\0E";
/// assert_eq!(carry(script, 1, Side::A, 2)?, 8);
/// assert_eq!(carry(script, 1, Side::B, 8)?, 2);
/// # Ok::<(), notchergrey::Refusal>(())
/// ```
///
/// # Errors
///
/// The refusals of [`find_match`], and 14 for a position that the match does not span on this side.
pub fn carry(script: &[u8], number: u32, side: Side, position: u32) -> Result<u32, Refusal> {
    door::carry(script, number, side, position)
}

/// Carries many positions of one side to the other, over the match of this number, each as [`carry`] does: `carried[k]`
/// becomes what `positions[k]` is carried to. They may stand in any order, and the same one twice. The script is read
/// once for all of them, however many they are.
///
/// ```
/// use notchergrey::{carry_all, Side, Word};
///
/// let script = b"L\x0a\0\0\0\x0a\0\0\0R\x02\0\0\0\x03\0\0\0\x05\0\0\0E";
/// let mut carried = [0; 3];
/// carry_all(script, 1, Side::A, &[2, 3, 7], &mut carried)?;
/// assert_eq!(carried, [8, 7, 3]);
///
/// // The match ends at 7 of A: none of these is carried.
/// let refusal = carry_all(script, 1, Side::A, &[2, 8, 3], &mut carried).unwrap_err();
/// assert_eq!(refusal.word(), Word::OffTheMatch);
/// assert_eq!(carried, [8, 7, 3]);
/// # Ok::<(), notchergrey::Refusal>(())
/// ```
///
/// Positions are not carried in place:
///
/// ```compile_fail,E0502
/// # use notchergrey::{carry_all, Side};
/// # let script = b"L\x0a\0\0\0\x0a\0\0\0R\x02\0\0\0\x03\0\0\0\x05\0\0\0E";
/// let mut positions = [2, 3, 7];
/// carry_all(script, 1, Side::A, &positions, &mut positions)?;
/// # Ok::<(), notchergrey::Refusal>(())
/// ```
///
/// # Errors
///
/// In this order: the refusals of [`find_match`]; 22 if `carried` has more or fewer numbers than there are positions;
/// 14 if the match does not span one of them on this side. A refusal keeps all of `carried`. An empty list passes into
/// an empty buffer wherever the script has this match.
pub fn carry_all(
    script: &[u8],
    number: u32,
    side: Side,
    positions: &[u32],
    carried: &mut [u32],
) -> Result<(), Refusal> {
    door::carry_all(script, number, side, positions, carried)
}

/// The letters of all matches together, of a script that is admitted. Marks may stand between the matches.
pub(crate) fn letters(script: &[u8]) -> usize {
    let mut rest = &script[LENGTHS_BYTES..];
    let mut letters: usize = 0;
    while rest[0] != END {
        if rest[0] == MARK {
            rest = &rest[MARK_BYTES..];
            continue;
        }
        let (found, behind) = rest.split_at(MATCH_BYTES);
        let length = found.last_chunk().expect("a match has 13 bytes");
        letters = letters.saturating_add(u32::from_le_bytes(*length) as usize);
        rest = behind;
    }
    letters
}
