//! The doors of the archive, as safe functions: the only module with `unsafe`. `include/notchergrey.h` says what each
//! door needs and does.

use crate::list::RECORD_NUMBERS;
use crate::refusal::Refusal;
use crate::script::{Script, Side};
use crate::table::CLASSES;
use notchergrey_sys::{
    notchergrey_carry_all_from_a, notchergrey_carry_all_from_b, notchergrey_carry_from_a,
    notchergrey_carry_from_b, notchergrey_chain, notchergrey_match, notchergrey_read,
    notchergrey_read_records, notchergrey_refine, notchergrey_report, notchergrey_rows_of,
    notchergrey_summary, notchergrey_write,
};

// SAFETY, in each function here: a door takes a pointer and the length behind it as one slice, and any other pointer
// as one number or one array. All come from borrows that last through the call; those that are written to are unique,
// so that none overlaps with another. A door keeps no pointer, and writes to nothing but what it is lent.

/// p, q and the counts of matches and of marks.
pub fn read(script: &[u8]) -> Result<Script, Refusal> {
    let (mut place, mut p, mut q, mut matches, mut marks) = (0, 0, 0, 0, 0);
    let number = unsafe {
        notchergrey_read(
            script.as_ptr(),
            script.len(),
            &mut place,
            &mut p,
            &mut q,
            &mut matches,
            &mut marks,
        )
    };
    Refusal::of_script_unless_zero(number, place)?;
    Ok(Script {
        p,
        q,
        matches,
        marks,
    })
}

/// Left-A, left-B, length and direction.
pub fn find_match(script: &[u8], number: u32) -> Result<(u32, u32, u32, u32), Refusal> {
    let mut place = 0;
    let (mut left_a, mut left_b, mut length, mut reversed) = (0, 0, 0, 0);
    let number = unsafe {
        notchergrey_match(
            script.as_ptr(),
            script.len(),
            number,
            &mut place,
            &mut left_a,
            &mut left_b,
            &mut length,
            &mut reversed,
        )
    };
    Refusal::of_script_unless_zero(number, place)?;
    Ok((left_a, left_b, length, reversed))
}

/// The script's length.
pub fn write(
    p: u32,
    q: u32,
    records: &[u32],
    marks: &[u32],
    script: &mut [u8],
) -> Result<usize, Refusal> {
    let (mut place, mut length) = (0, 0);
    let number = unsafe {
        notchergrey_write(
            p,
            q,
            records.as_ptr(),
            records.len(),
            marks.as_ptr(),
            marks.len(),
            script.as_mut_ptr(),
            script.len(),
            &mut place,
            &mut length,
        )
    };
    Refusal::of_list_unless_zero(number, place, records.len() / RECORD_NUMBERS)?;
    Ok(length)
}

/// p, q and the counts of matches and of marks.
pub fn read_records(
    script: &[u8],
    records: &mut [u32],
    marks: &mut [u32],
) -> Result<Script, Refusal> {
    let (mut place, mut p, mut q, mut match_count, mut mark_count) = (0, 0, 0, 0, 0);
    let number = unsafe {
        notchergrey_read_records(
            script.as_ptr(),
            script.len(),
            records.as_mut_ptr(),
            records.len(),
            marks.as_mut_ptr(),
            marks.len(),
            &mut place,
            &mut p,
            &mut q,
            &mut match_count,
            &mut mark_count,
        )
    };
    Refusal::of_script_unless_zero(number, place)?;
    Ok(Script {
        p,
        q,
        matches: match_count,
        marks: mark_count,
    })
}

/// The count of rows.
pub fn refine(script: &[u8], table: &mut [u32], work: &mut [u32]) -> Result<usize, Refusal> {
    let (mut place, mut rows) = (0, 0);
    let number = unsafe {
        notchergrey_refine(
            script.as_ptr(),
            script.len(),
            table.as_mut_ptr(),
            table.len(),
            work.as_mut_ptr(),
            work.len(),
            &mut place,
            &mut rows,
        )
    };
    Refusal::of_script_unless_zero(number, place)?;
    Ok(rows)
}

/// The score, the count of rows and the length of the chain.
pub fn chain(
    script: &[u8],
    price: u32,
    table: &mut [u32],
    work: &mut [u32],
    chain: &mut [u32],
    scores: &mut [u32],
) -> Result<(u64, usize, usize), Refusal> {
    let (mut place, mut score, mut rows, mut length) = (0, 0, 0, 0);
    let number = unsafe {
        notchergrey_chain(
            script.as_ptr(),
            script.len(),
            price,
            table.as_mut_ptr(),
            table.len(),
            work.as_mut_ptr(),
            work.len(),
            chain.as_mut_ptr(),
            chain.len(),
            scores.as_mut_ptr(),
            scores.len(),
            &mut place,
            &mut score,
            &mut rows,
            &mut length,
        )
    };
    Refusal::of_script_unless_zero(number, place)?;
    Ok((score, rows, length))
}

/// The position on the other side.
pub fn carry(script: &[u8], number: u32, side: Side, position: u32) -> Result<u32, Refusal> {
    let carry_from = match side {
        Side::A => notchergrey_carry_from_a,
        Side::B => notchergrey_carry_from_b,
    };
    let (mut place, mut carried) = (0, 0);
    let number = unsafe {
        carry_from(
            script.as_ptr(),
            script.len(),
            number,
            position,
            &mut place,
            &mut carried,
        )
    };
    Refusal::of_script_unless_zero(number, place)?;
    Ok(carried)
}

/// Writes the positions on the other side.
pub fn carry_all(
    script: &[u8],
    number: u32,
    side: Side,
    positions: &[u32],
    carried: &mut [u32],
) -> Result<(), Refusal> {
    let carry_all_from = match side {
        Side::A => notchergrey_carry_all_from_a,
        Side::B => notchergrey_carry_all_from_b,
    };
    let mut place = 0;
    let number = unsafe {
        carry_all_from(
            script.as_ptr(),
            script.len(),
            number,
            positions.as_ptr(),
            positions.len(),
            carried.as_mut_ptr(),
            carried.len(),
            &mut place,
        )
    };
    Refusal::of_script_unless_zero(number, place)
}

/// The first number of the rows in the table, and the one behind their last. This door refuses nothing.
pub fn rows_of(table: &[u32], number: u32) -> (usize, usize) {
    let (mut start, mut end) = (0, 0);
    unsafe {
        notchergrey_rows_of(table.as_ptr(), table.len(), number, &mut start, &mut end);
    }
    (start, end)
}

/// Pieces, distinct pieces, covers of A and B, and classes. This door refuses nothing.
pub fn summary(table: &[u32]) -> (usize, usize, [u64; 2], [usize; CLASSES]) {
    let (mut pieces, mut distinct) = (0, 0);
    let (mut covers, mut classes) = ([0; 2], [0; CLASSES]);
    unsafe {
        notchergrey_summary(
            table.as_ptr(),
            table.len(),
            &mut pieces,
            &mut distinct,
            &mut covers,
            &mut classes,
        );
    }
    (pieces, distinct, covers, classes)
}

/// The text's length, and whether the text was written: it is not where the buffer is too short.
pub fn report(script: &[u8], text: &mut [u8]) -> (usize, bool) {
    let mut length = 0;
    let number = unsafe {
        notchergrey_report(
            script.as_ptr(),
            script.len(),
            text.as_mut_ptr(),
            text.len(),
            &mut length,
        )
    };
    (length, number == 0)
}
