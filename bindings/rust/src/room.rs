//! Room for the rows of a table, in memory that a call makes itself: more and more of it, until they fit.

use crate::error::Error;
use crate::script::{letters, read};
use crate::word::Word;

/// The rows that there is room for at first: as many as the program has.
const FIRST_ROWS: usize = 3_000;

/// What `call` answers with room for 3,000 rows, and for twice as many as before as long as it refuses with 12. It is
/// never handed more than `most_rows`, nor more than all matches together have letters.
pub(crate) fn with_growing_room<T>(
    script: &[u8],
    most_rows: usize,
    call: impl Fn(usize) -> Result<T, Error>,
) -> Result<T, Error> {
    read(script)?;
    let most_rows = most_rows.min(letters(script));
    let mut room = FIRST_ROWS.min(most_rows);
    loop {
        match call(room) {
            Err(Error::Refused(refusal))
                if refusal.word() == Word::TooManyPieces && room < most_rows =>
            {
                room = room.saturating_mul(2).min(most_rows);
            }
            answer => return answer,
        }
    }
}

/// A buffer with so many numbers for each of so many rows.
pub(crate) fn room_for(rows: usize, numbers_of_a_row: usize) -> Result<Vec<u32>, Error> {
    let numbers = rows.checked_mul(numbers_of_a_row).and_then(zeros);
    numbers.ok_or(Error::OutOfMemory { rows })
}

/// None: there is no memory for so many numbers.
fn zeros(length: usize) -> Option<Vec<u32>> {
    let mut numbers = Vec::new();
    numbers.try_reserve_exact(length).ok()?;
    numbers.resize(length, 0);
    Some(numbers)
}

/// The first numbers of a buffer, so many, without the room behind them.
pub(crate) fn start_of(mut numbers: Vec<u32>, length: usize) -> Vec<u32> {
    numbers.truncate(length);
    numbers.shrink_to_fit();
    numbers
}
