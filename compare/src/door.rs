//! The proved program, through the doors that its static library opens. Nothing else here calls it.
//!
//! Each door returns 0 or the refusal's number, and writes to the numbers and buffers it is lent.

use crate::slow::carrying::Side;
use notchergrey_sys::{
    notchergrey_carry_all_from_a, notchergrey_carry_all_from_b, notchergrey_carry_from_a,
    notchergrey_carry_from_b, notchergrey_chain, notchergrey_match, notchergrey_read,
    notchergrey_read_records, notchergrey_refine, notchergrey_report, notchergrey_rows_of,
    notchergrey_summary, notchergrey_write,
};
use std::ptr;

/// The numbers lent to the door that reads a script, and to the one that reads its records.
#[derive(Clone, Copy, Debug, PartialEq, Eq)]
pub struct Reading {
    pub place: usize,
    pub p: u32,
    pub q: u32,
    pub count: usize,
    pub mark_count: usize,
}

/// The numbers lent to the door that finds one match.
#[derive(Clone, Copy, Debug, PartialEq, Eq)]
pub struct OneMatch {
    pub place: usize,
    pub left_a: u32,
    pub left_b: u32,
    pub length: u32,
    pub reversed: u32,
}

/// The numbers lent to the door that writes a script, beside the buffer for it.
#[derive(Clone, Copy, Debug, PartialEq, Eq)]
pub struct Writing {
    pub place: usize,
    pub length: usize,
}

/// The numbers lent to the door that refines, beside the table and the work buffer.
#[derive(Clone, Copy, Debug, PartialEq, Eq)]
pub struct Refining {
    pub place: usize,
    pub rows: usize,
}

/// The numbers lent to the door that finds the backbone, beside the four buffers.
#[derive(Clone, Copy, Debug, PartialEq, Eq)]
pub struct Chaining {
    pub place: usize,
    pub score: u64,
    pub rows: usize,
    pub length: usize,
}

/// The numbers lent to the doors that carry one position.
#[derive(Clone, Copy, Debug, PartialEq, Eq)]
pub struct Carrying {
    pub place: usize,
    pub carried: u32,
}

/// The numbers lent to the door that finds the rows of a match: indices of numbers in the table.
#[derive(Clone, Copy, Debug, PartialEq, Eq)]
pub struct RowsOf {
    pub start: usize,
    pub end: usize,
}

/// The numbers lent to the door that sums a table up.
#[derive(Clone, Copy, Debug, PartialEq, Eq)]
pub struct Summary {
    pub pieces: usize,
    pub distinct: usize,
    /// For A and for B.
    pub covers: [u64; 2],
    pub classes: [usize; 30],
}

// SAFETY, in each function here: the door takes a pointer and a length as one slice, and any other
// pointer as one number or one array. All come from borrows that last through the call, and those
// that are written to do not overlap. A slice of no elements may have any pointer.

pub fn read(script: &[u8], lent: &mut Reading) -> u32 {
    unsafe {
        notchergrey_read(
            start_of(script),
            script.len(),
            &mut lent.place,
            &mut lent.p,
            &mut lent.q,
            &mut lent.count,
            &mut lent.mark_count,
        )
    }
}

pub fn one_match(script: &[u8], number: u32, lent: &mut OneMatch) -> u32 {
    unsafe {
        notchergrey_match(
            start_of(script),
            script.len(),
            number,
            &mut lent.place,
            &mut lent.left_a,
            &mut lent.left_b,
            &mut lent.length,
            &mut lent.reversed,
        )
    }
}

pub fn write(
    p: u32,
    q: u32,
    records: &[u32],
    marks: &[u32],
    script: &mut [u8],
    lent: &mut Writing,
) -> u32 {
    unsafe {
        notchergrey_write(
            p,
            q,
            start_of(records),
            records.len(),
            start_of(marks),
            marks.len(),
            start_of_lent(script),
            script.len(),
            &mut lent.place,
            &mut lent.length,
        )
    }
}

pub fn read_records(
    script: &[u8],
    records: &mut [u32],
    marks: &mut [u32],
    lent: &mut Reading,
) -> u32 {
    unsafe {
        notchergrey_read_records(
            start_of(script),
            script.len(),
            start_of_lent(records),
            records.len(),
            start_of_lent(marks),
            marks.len(),
            &mut lent.place,
            &mut lent.p,
            &mut lent.q,
            &mut lent.count,
            &mut lent.mark_count,
        )
    }
}

pub fn refine(script: &[u8], table: &mut [u32], work: &mut [u32], lent: &mut Refining) -> u32 {
    unsafe {
        notchergrey_refine(
            start_of(script),
            script.len(),
            start_of_lent(table),
            table.len(),
            start_of_lent(work),
            work.len(),
            &mut lent.place,
            &mut lent.rows,
        )
    }
}

pub fn chain(
    script: &[u8],
    price: u32,
    table: &mut [u32],
    work: &mut [u32],
    chain: &mut [u32],
    scores: &mut [u32],
    lent: &mut Chaining,
) -> u32 {
    unsafe {
        notchergrey_chain(
            start_of(script),
            script.len(),
            price,
            start_of_lent(table),
            table.len(),
            start_of_lent(work),
            work.len(),
            start_of_lent(chain),
            chain.len(),
            start_of_lent(scores),
            scores.len(),
            &mut lent.place,
            &mut lent.score,
            &mut lent.rows,
            &mut lent.length,
        )
    }
}

pub fn carry(script: &[u8], number: u32, side: Side, position: u32, lent: &mut Carrying) -> u32 {
    let door = match side {
        Side::A => notchergrey_carry_from_a,
        Side::B => notchergrey_carry_from_b,
    };
    unsafe {
        door(
            start_of(script),
            script.len(),
            number,
            position,
            &mut lent.place,
            &mut lent.carried,
        )
    }
}

/// Only the place is lent beside the buffer for the carried positions.
pub fn carry_all(
    script: &[u8],
    number: u32,
    side: Side,
    positions: &[u32],
    carried: &mut [u32],
    place: &mut usize,
) -> u32 {
    let door = match side {
        Side::A => notchergrey_carry_all_from_a,
        Side::B => notchergrey_carry_all_from_b,
    };
    unsafe {
        door(
            start_of(script),
            script.len(),
            number,
            start_of(positions),
            positions.len(),
            start_of_lent(carried),
            carried.len(),
            place,
        )
    }
}

pub fn rows_of(table: &[u32], number: u32, lent: &mut RowsOf) -> u32 {
    unsafe {
        notchergrey_rows_of(
            start_of(table),
            table.len(),
            number,
            &mut lent.start,
            &mut lent.end,
        )
    }
}

pub fn summary(table: &[u32], lent: &mut Summary) -> u32 {
    unsafe {
        notchergrey_summary(
            start_of(table),
            table.len(),
            &mut lent.pieces,
            &mut lent.distinct,
            &mut lent.covers,
            &mut lent.classes,
        )
    }
}

/// A refusal's line is a text like any other: the answer is 0 wherever the text fits.
pub fn report(script: &[u8], text: &mut [u8], length: &mut usize) -> u32 {
    unsafe {
        notchergrey_report(
            start_of(script),
            script.len(),
            start_of_lent(text),
            text.len(),
            length,
        )
    }
}

/// Null for a slice of no elements: of all pointers that the doors must bear, the hardest.
fn start_of<T>(slice: &[T]) -> *const T {
    if slice.is_empty() {
        ptr::null()
    } else {
        slice.as_ptr()
    }
}

fn start_of_lent<T>(slice: &mut [T]) -> *mut T {
    if slice.is_empty() {
        ptr::null_mut()
    } else {
        slice.as_mut_ptr()
    }
}
