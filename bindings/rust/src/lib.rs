//! The piece table of two genomes: safe calls of the proved library, which is linked as a C archive.
//!
//! A match says that a stretch of sequence A and a stretch of sequence B belong together, read in the same direction or
//! reversed. Where matches overlap, the table cuts them into pieces so that no end of a piece lies inside another, and
//! into no more pieces than that takes.
//!
//! Matches go in as a script: bytes, which [`write()`] makes of a list of matches and [`read_list`] turns back into
//! one. Positions lie between letters and are counted from 0.
//!
//! ```
//! use notchergrey::Match;
//!
//! let matches = [
//!     Match { left_a: 0, left_b: 0, length: 6, reversed: false },
//!     Match { left_a: 2, left_b: 3, length: 5, reversed: true },
//! ];
//! let script = notchergrey::write(10, 10, &matches, &[])?;
//!
//! let table = notchergrey::refine(&script)?;
//! assert_eq!(table.len(), 8);
//! for row in table.rows() {
//!     println!("match {}: {} letters from {} of A", row.number, row.length, row.left_a);
//! }
//! let summary = table.summary();
//! assert_eq!((summary.distinct, summary.covers), (8, [7, 8]));
//! # Ok::<(), notchergrey::Error>(())
//! ```
//!
//! A list may have marks beside its matches. A [`Mark`] is a position that must be a cut, such as that of a breeder's
//! marker, which may not sit inside a piece: the table is the least one that has every mark which a match spans among
//! its cuts.
//!
//! ```
//! use notchergrey::{Mark, Match, Side};
//!
//! let matches = [Match { left_a: 0, left_b: 3, length: 6, reversed: false }];
//! let marks = [Mark { side: Side::A, position: 2 }, Mark { side: Side::A, position: 8 }];
//! let table = notchergrey::refine(&notchergrey::write(10, 10, &matches, &marks)?)?;
//! let lefts: Vec<(u32, u32)> = table.rows().map(|row| (row.left_a, row.left_b)).collect();
//! assert_eq!(lefts, [(0, 3), (2, 5)]);
//! # Ok::<(), notchergrey::Error>(())
//! ```
//!
//! In a script a command is one byte, and its operands are numbers of four bytes, least byte first. `L` (4C) gives the
//! letter counts of A and B, `D` (44) a direct match and `R` (52) a reversed one, each with left-A, left-B and length,
//! `M` (4D) a mark with its side, a single byte, and its position, and `E` (45) is the end.
//!
//! [`backbone`] finds the best run of direct pieces that are in the same order on both genomes. [`carry`] takes a
//! position from one genome to the other over a match, and [`carry_all`] a whole list of them at once.
//!
//! What cannot be answered comes back as a [`Refusal`], which says in plain words what to do about it. [`refine`],
//! [`backbone`] and the same within a limit make room for the rows themselves, so that memory may end: they return an
//! [`Error`], which a refusal turns into by `?`.
//!
//! The archive is written by `bash archive capi` to `target/staticlib` of the repository. If it lies elsewhere, the
//! environment variable `NOTCHERGREY_STATICLIB` names its folder when this crate is built; a relative one is seen from
//! where cargo is started.
//!
//! # Stack
//!
//! The calls need no more than the main thread and the threads of the standard library have by default. A thread with a
//! stack of 512 kB may call any of them, and one with 256 kB any but [`report`]: that takes 275 kB, the summary 170 kB,
//! refining and the backbone 110 kB, the others next to nothing, whatever the input, as measured on x86-64. With less
//! the program is aborted, as on any overflow of the stack.

#![warn(missing_docs)]

mod chain;
mod door;
mod error;
mod list;
mod refining;
mod refusal;
mod report;
mod room;
mod script;
mod table;
mod word;

pub use chain::{backbone, backbone_within, chain_into, Backbone, Chained, MOST_PRICE};
pub use error::Error;
pub use list::{read_list, read_records_into, write, write_into, List};
pub use list::{MARK_NUMBERS, RECORD_NUMBERS};
pub use refining::{refine, refine_into, refine_within, WORK_NUMBERS};
pub use refusal::Refusal;
pub use report::report;
pub use script::{carry, carry_all, find_match, read, Mark, Match, Script, Side};
pub use script::{LONGEST_SCRIPT, MARK_BYTES, MATCH_BYTES, SHORTEST_SCRIPT};
pub use script::{MOST_MARKS, MOST_MATCHES};
pub use table::{rows, rows_of, summary, Row, Rows, Summary, Table, CLASSES, ROW_NUMBERS};
pub use word::Word;
