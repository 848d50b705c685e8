//! Which marks of a script tell, and how they stand among the matches, found from the script itself: a program
//! that takes a mark for another, or for none, makes another table of such a script.

use crate::draft::{BYTES_OF_A_MARK, BYTES_OF_A_MATCH, BYTES_OF_LENGTHS};
use crate::slow::carrying::Side;
use crate::slow::refinement::{least, Piece};
use crate::slow::refusal::{Refusal, Word};
use crate::slow::report::ROWS;
use crate::slow::script::{Mark, Match, Script, END, MARK};
use crate::slow::table::WORK_OF_A_ROW;
use crate::tally::{Outcome, Tally};
use std::collections::BTreeSet;

pub const MAKES_A_CUT_ON_A: &str = "a mark on A that alone makes a cut";
pub const MAKES_A_CUT_ON_B: &str = "a mark on B that alone makes a cut";
pub const CARRIED_ON: &str = "a mark that makes cuts two carries away and further";
pub const A_CUT_ANYWAY: &str = "a mark that is a cut anyway, by carrying";
pub const AT_AN_END: &str = "a mark at an end of a match";
pub const REPEATED: &str = "the same mark again";
pub const UNSPANNED: &str = "a mark that no match spans";
pub const ASTRAY_ON_A: &str = "a mark on A that would be a new cut on B alone";
pub const ASTRAY_ON_B: &str = "a mark on B that would be a new cut on A alone";
pub const MANY_UNSPANNED: &str = "just enough rows, more unspanned marks than numbers of work";
pub const DECIDES: &str = "too many pieces, and not without the marks";

pub const NO_MATCH: &str = "marks and no match";
pub const FIRST: &str = "a mark before the first match";
pub const BETWEEN: &str = "a mark between two matches";
pub const BEHIND: &str = "all marks behind all matches";

pub const CUT_SHORT: &str = "3 at a mark";
pub const NO_SIDE_AND_BEYOND: &str = "20 at a mark that is beyond both sequences too";
pub const TOO_MANY_AND_CUT_SHORT: &str = "19 at a mark that is cut short too";
pub const TOO_MANY_AND_NO_SIDE: &str = "19 at a mark of no side";
pub const TOO_MANY_AND_BEYOND: &str = "19 at a mark beyond its sequence";

/// Every mark is held to every match: of more matches none of the first kinds is found.
const FEW: usize = 64;

/// Counts an admitted script by the kinds of its marks, with their number.
pub fn count(bytes: &[u8], script: &Script, tally: &mut Tally) {
    for kind in of(script) {
        tally.met_outcome(Outcome::Kind(kind), script.marks.len());
    }
    count_order(bytes, script, tally);
}

/// The same by the order of the commands alone.
pub fn count_order(bytes: &[u8], script: &Script, tally: &mut Tally) {
    for kind in order(bytes) {
        tally.met_outcome(Outcome::Kind(kind), script.marks.len());
    }
}

// ---- what the marks make

/// The kinds of a script whose rows are not too many for the program's table.
pub fn of(script: &Script) -> Vec<&'static str> {
    if script.marks.is_empty() || script.matches.len() > FEW {
        return Vec::new();
    }
    let Some(field) = Field::of(script) else {
        return Vec::new();
    };
    let kinds = [
        (MAKES_A_CUT_ON_A, field.any_on(Side::A, Field::is_made_by)),
        (MAKES_A_CUT_ON_B, field.any_on(Side::B, Field::is_made_by)),
        (CARRIED_ON, field.is_carried_on()),
        (A_CUT_ANYWAY, field.any(Field::is_a_cut_anyway)),
        (AT_AN_END, field.any(Field::is_at_an_end)),
        (REPEATED, places(&script.marks).len() < script.marks.len()),
        (UNSPANNED, field.any(|field, mark| !field.spans(mark))),
        (ASTRAY_ON_A, field.any_on(Side::A, Field::is_astray)),
        (ASTRAY_ON_B, field.any_on(Side::B, Field::is_astray)),
        (MANY_UNSPANNED, field.has_many_unspanned()),
    ];
    let of_script = kinds.into_iter().filter(|(_, is)| *is);
    of_script.map(|(kind, _)| kind).collect()
}

/// The rows of the script's table, and those that it had without the marks, if they are not too many.
pub fn rows(script: &Script) -> Option<[usize; 2]> {
    let rows = |marks| least(&script.matches, marks, ROWS).map(|pieces| pieces.len());
    Some([rows(&script.marks)?, rows(&[])?])
}

/// A script, and its cuts with and without the marks.
struct Field<'a> {
    script: &'a Script,
    rows: usize,
    with: Cuts,
    without: Cuts,
}

/// On A and on B.
struct Cuts([BTreeSet<u64>; 2]);

impl Cuts {
    fn of(pieces: &[Piece]) -> Cuts {
        let ends = |left: fn(&Piece) -> u64| {
            let both = |piece| [left(piece), left(piece) + piece.length];
            pieces.iter().flat_map(both).collect()
        };
        Cuts([ends(|piece| piece.left_a), ends(|piece| piece.left_b)])
    }

    fn on(&self, side: Side) -> &BTreeSet<u64> {
        match side {
            Side::A => &self.0[0],
            Side::B => &self.0[1],
        }
    }

    fn has(&self, mark: &Mark) -> bool {
        self.on(mark.side).contains(&mark.position)
    }
}

impl<'a> Field<'a> {
    fn of(script: &'a Script) -> Option<Field<'a>> {
        let with = least(&script.matches, &script.marks, ROWS)?;
        let without = least(&script.matches, &[], ROWS)?;
        Some(Field {
            script,
            rows: with.len(),
            with: Cuts::of(&with),
            without: Cuts::of(&without),
        })
    }

    fn any(&self, is: fn(&Field<'a>, &Mark) -> bool) -> bool {
        self.script.marks.iter().any(|mark| is(self, mark))
    }

    fn any_on(&self, side: Side, is: fn(&Field<'a>, &Mark) -> bool) -> bool {
        let mut marks = self.script.marks.iter().filter(|mark| mark.side == side);
        marks.any(|mark| is(self, mark))
    }

    fn spans(&self, mark: &Mark) -> bool {
        self.script.matches.iter().any(|m| mark.is_spanned_by(m))
    }

    fn is_made_by(&self, mark: &Mark) -> bool {
        self.spans(mark) && !self.without.has(mark)
    }

    fn is_a_cut_anyway(&self, mark: &Mark) -> bool {
        self.without.has(mark) && !self.is_at_an_end(mark)
    }

    fn is_at_an_end(&self, mark: &Mark) -> bool {
        let ends = |m: &Match| {
            let span = m.span(mark.side);
            [*span.start(), *span.end()]
        };
        let matches = self.script.matches.iter();
        matches.flat_map(ends).any(|end| end == mark.position)
    }

    /// The other side has matches over the mark's number, and no cut there.
    fn is_astray(&self, mark: &Mark) -> bool {
        let there = on_the_other_side(mark, mark.position);
        !self.spans(mark) && self.spans(&there) && !self.with.has(&there)
    }

    /// A cut that the marks make, and is neither a mark nor what one match carries a mark to.
    fn is_carried_on(&self) -> bool {
        let marks = &self.script.marks;
        let images: Vec<Mark> = marks.iter().flat_map(|mark| self.images(mark)).collect();
        let near = places(marks.iter().chain(&images));
        [Side::A, Side::B].into_iter().any(|side| {
            let mut made = self.with.on(side).difference(self.without.on(side));
            made.any(|&position| !near.contains(&place(&Mark { side, position })))
        })
    }

    fn images(&self, mark: &Mark) -> Vec<Mark> {
        let spanning = self.script.matches.iter().filter(|m| mark.is_spanned_by(m));
        let image = |m: &Match| on_the_other_side(mark, m.carry(mark.side, mark.position));
        spanning.map(image).collect()
    }

    fn has_many_unspanned(&self) -> bool {
        let unspanned = self.script.marks.iter().filter(|mark| !self.spans(mark));
        self.rows > 0 && places(unspanned).len() > WORK_OF_A_ROW * self.rows
    }
}

/// Each once.
fn places<'a>(marks: impl IntoIterator<Item = &'a Mark>) -> BTreeSet<(bool, u64)> {
    marks.into_iter().map(place).collect()
}

fn place(mark: &Mark) -> (bool, u64) {
    (mark.side == Side::B, mark.position)
}

fn on_the_other_side(mark: &Mark, position: u64) -> Mark {
    let side = match mark.side {
        Side::A => Side::B,
        Side::B => Side::A,
    };
    Mark { side, position }
}

// ---- where the marks stand

/// The kinds of an admitted script.
pub fn order(bytes: &[u8]) -> Vec<&'static str> {
    let are_marks = are_marks(bytes);
    let last_match = are_marks.iter().rposition(|is_mark| !is_mark);
    let first_match = are_marks.iter().position(|is_mark| !is_mark);
    let (Some(first), Some(last)) = (first_match, last_match) else {
        return if are_marks.is_empty() {
            Vec::new()
        } else {
            vec![NO_MATCH]
        };
    };
    let kinds = [
        (FIRST, first > 0),
        (BETWEEN, are_marks[first..last].contains(&true)),
        (
            BEHIND,
            last + 1 < are_marks.len() && matches_come_first(bytes),
        ),
    ];
    let of_script = kinds.into_iter().filter(|(_, is)| *is);
    of_script.map(|(kind, _)| kind).collect()
}

/// Only such an admitted script comes back byte for byte.
pub fn matches_come_first(bytes: &[u8]) -> bool {
    are_marks(bytes).is_sorted()
}

/// The same commands with all matches before all marks.
pub fn with_matches_first(bytes: &[u8]) -> Vec<u8> {
    let mut commands = commands(bytes);
    commands.sort_by_key(|command| command[0] == MARK);
    [&bytes[..BYTES_OF_LENGTHS], &commands.concat(), &[END]].concat()
}

fn are_marks(bytes: &[u8]) -> Vec<bool> {
    let commands = commands(bytes).into_iter();
    commands.map(|command| command[0] == MARK).collect()
}

/// The commands between lengths and end, each with its operands.
fn commands(bytes: &[u8]) -> Vec<&[u8]> {
    let mut commands = Vec::new();
    let mut rest = &bytes[BYTES_OF_LENGTHS..];
    while rest[0] != END {
        let length = match rest[0] {
            MARK => BYTES_OF_A_MARK,
            _ => BYTES_OF_A_MATCH,
        };
        let (command, behind) = rest.split_at(length);
        commands.push(command);
        rest = behind;
    }
    commands
}

// ---- faults of marks

/// The kind of a refused script whose fault is found at a mark and has others beside it.
pub fn fault(bytes: &[u8], refusal: Refusal) -> Option<&'static str> {
    let operands = match bytes.get(refusal.place..) {
        Some([MARK, operands @ ..]) if refusal.place > 0 => operands,
        _ => return None,
    };
    let Some((&[side, ref position @ ..], _)) = operands.split_first_chunk::<5>() else {
        return match refusal.word {
            Word::CutShort => Some(CUT_SHORT),
            Word::TooManyMarks => Some(TOO_MANY_AND_CUT_SHORT),
            _ => None,
        };
    };
    let position = number(position);
    let [p, q] = [1, 5].map(|place| number(&bytes[place..place + 4]));
    let letters = if side == 0 { p } else { q };
    match refusal.word {
        Word::NoSuchSide if position > p.max(q) => Some(NO_SIDE_AND_BEYOND),
        Word::TooManyMarks if side > 1 => Some(TOO_MANY_AND_NO_SIDE),
        Word::TooManyMarks if position > letters => Some(TOO_MANY_AND_BEYOND),
        _ => None,
    }
}

fn number(bytes: &[u8]) -> u32 {
    let bytes = bytes.try_into().expect("four bytes");
    u32::from_le_bytes(bytes)
}
