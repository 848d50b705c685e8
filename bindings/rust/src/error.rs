//! Why there is no table, or no backbone.

use crate::chain::LINK_BYTES;
use crate::refining::ROW_BYTES;
use crate::refusal::Refusal;
use std::error;
use std::fmt;

/// Why a call that makes room for the rows itself has no answer: [`refine`](crate::refine),
/// [`backbone`](crate::backbone), and the same within a limit.
///
/// A [`Refusal`] turns into one, so that `?` serves all calls of this crate in one function:
///
/// ```
/// fn rows_for_each_match(script: &[u8]) -> Result<usize, notchergrey::Error> {
///     let matches = notchergrey::read(script)?.matches;
///     Ok(notchergrey::refine(script)?.len() / matches.max(1))
/// }
///
/// let error = rows_for_each_match(b"").unwrap_err();
/// assert_eq!(error.refusal().map(|refusal| refusal.number()), Some(1));
/// ```
#[derive(Clone, Copy, Debug, PartialEq, Eq, Hash)]
pub enum Error {
    /// The library refuses the script or the gap price, or the table has more rows than were allowed.
    Refused(Refusal),
    /// There is no memory to work with a table of so many rows. It says nothing about the rows that the script needs.
    OutOfMemory {
        /// The rows that the table had room for, had it been made.
        rows: usize,
    },
}

impl Error {
    /// The refusal, if it is one.
    pub fn refusal(&self) -> Option<Refusal> {
        match *self {
            Error::Refused(refusal) => Some(refusal),
            Error::OutOfMemory { .. } => None,
        }
    }
}

impl From<Refusal> for Error {
    fn from(refusal: Refusal) -> Error {
        Error::Refused(refusal)
    }
}

impl fmt::Display for Error {
    fn fmt(&self, f: &mut fmt::Formatter<'_>) -> fmt::Result {
        match self {
            Error::Refused(refusal) => refusal.fmt(f),
            Error::OutOfMemory { rows } => {
                let bytes = |of_a_row: usize| *rows as u128 * of_a_row as u128;
                write!(
                    f,
                    "out of memory: a table of {rows} rows takes {} bytes while it is made, and {} with its backbone; \
                     make memory free, leave out matches that overlap many others, or set a limit of rows",
                    bytes(ROW_BYTES),
                    bytes(ROW_BYTES + LINK_BYTES)
                )
            }
        }
    }
}

impl error::Error for Error {}
