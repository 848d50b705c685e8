//! Tables whose numbers follow a pattern, which a count that deals rows by their numbers might deal badly.

use crate::draft::DraftMatch;

/// A name, and what row k is.
type Pattern = (&'static str, fn(u32) -> [u32; 5]);

const PATTERNS: [Pattern; 7] = [
    ("equal distances", |k| [1, 64 * k, 64 * k + 5, 9, 0]),
    ("left-B falling", |k| [1, 7 * k, u32::MAX - 7 * k, 7, 1]),
    ("upper bits", |k| [1, k << 16, k >> 4 << 20, k << 13, 0]),
    ("a grid", |k| [1, k / 1_024, k % 1_024, 1, 0]),
    ("lengths alone", |k| [1, 0, 0, k, 0]),
    ("directions alone", |k| [1, 7, 8, 9, k]),
    ("mirror images", |k| [1, k / 2, 7 * (k / 2), 3, k % 2]),
];

/// A table of each pattern.
pub fn all(rows: u32) -> impl Iterator<Item = (&'static str, Vec<u32>)> {
    PATTERNS
        .map(|(name, row)| (name, (0..rows).flat_map(row).collect()))
        .into_iter()
}

/// Matches of 333 letters that start together on A, two of them one letter apart on B, so that each is cut into single
/// letters.
pub fn matches(count: u32) -> Vec<DraftMatch> {
    let apart = (0..count - 1).map(|k| 4_096 * k);
    apart
        .chain([1])
        .map(|left| DraftMatch::direct(0, left, 333))
        .collect()
}
