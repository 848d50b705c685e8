//! How the stretches of a table lie, and what its pieces differ in, found from the table itself: the
//! run says what it met, whatever the groups meant to draw.

use crate::slow::carrying::Side;
use crate::slow::covers::Stretch;
use crate::slow::table::{stretches, Summary, NUMBERS_OF_A_ROW};
use std::collections::BTreeSet;

pub const UNDER_TWO_ROWS: &str = "a letter under two rows";
pub const ON_ONE_SIDE_ALONE: &str = "a letter under two rows on one side alone";
pub const TOUCHING: &str = "a row that begins where others end";
pub const NESTED: &str = "a row within another, longer one";
pub const EQUAL: &str = "equal rows";
pub const EMPTY_ROW: &str = "a row of no letter beside others";
pub const NOTHING_COVERED: &str = "rows that cover nothing";
pub const PAST_32_BITS: &str = "a right end past 2^32";
pub const COVERS_PAST_32_BITS: &str = "covers of 2^32 and more";
pub const SIDES_DIFFER: &str = "A and B covered differently";
pub const DIRECTION_TELLS: &str = "a stretch in two directions";
pub const OTHER_DIRECTIONS: &str = "a stretch in two directions, neither of them 0";
pub const NUMBER_MISLEADS: &str = "stretches in other counts of match numbers than of directions";
pub const OVER_4096: &str = "more than 4,096 separate stretches";
pub const OVER_8192: &str = "more than 8,192 separate stretches";
pub const OVER_16384: &str = "more than 16,384 separate stretches";
pub const LONG_ROW: &str = "a row over more than 4,096 others";
pub const LONG_ROW_FIRST: &str = "a row over more than 4,096 others, the first";
pub const LONG_ROW_LAST: &str = "a row over more than 4,096 others, the last";
pub const LONG_AND_APART: &str = "a row over more than 4,096 others, and as many apart";
pub const RISING: &str = "more than 4,096 rows, left ends rising";
pub const FALLING: &str = "more than 4,096 rows, left ends falling";

/// A row is long if more others than that begin under it.
const MANY: usize = 4_096;

/// The kinds of a table that has this summary.
pub fn of(table: &[u32], summary: &Summary) -> Vec<&'static str> {
    let [a, b] = [Side::A, Side::B].map(|side| Lying::of(stretches(table, side)));
    let any = |is: fn(&Lying) -> bool| is(&a) || is(&b);
    let told_by = |last: fn(&[u32]) -> u32| {
        let rows = table.chunks_exact(NUMBERS_OF_A_ROW);
        rows.map(|row| (&row[1..4], last(row))).collect::<BTreeSet<_>>().len()
    };
    let most_separate = a.separate.max(b.separate);
    let most_covered = summary.covers[0].max(summary.covers[1]);
    let kinds = [
        (UNDER_TWO_ROWS, any(|side| side.overlap)),
        (ON_ONE_SIDE_ALONE, a.overlap != b.overlap),
        (TOUCHING, any(|side| side.touching)),
        (NESTED, any(|side| side.nested)),
        (EQUAL, summary.distinct < summary.pieces),
        (DIRECTION_TELLS, told_by(|_| 0) != summary.distinct),
        (OTHER_DIRECTIONS, told_by(|row| row[4].min(1)) != summary.distinct),
        (NUMBER_MISLEADS, told_by(|row| row[0]) != summary.distinct),
        (EMPTY_ROW, a.empty_rows && a.separate > 0),
        (NOTHING_COVERED, a.empty_rows && a.separate == 0),
        (PAST_32_BITS, any(|side| side.past_32_bits)),
        (COVERS_PAST_32_BITS, most_covered >= 1 << 32),
        (SIDES_DIFFER, summary.covers[0] != summary.covers[1]),
        (OVER_4096, most_separate > 4_096),
        (OVER_8192, most_separate > 8_192),
        (OVER_16384, most_separate > 16_384),
        (LONG_ROW, any(|side| !side.long_rows.is_empty())),
        (LONG_ROW_FIRST, any(|side| side.long_rows.contains(&0))),
        (LONG_ROW_LAST, any(Lying::has_long_row_last)),
        (
            LONG_AND_APART,
            any(|side| !side.long_rows.is_empty() && side.separate > MANY),
        ),
        (RISING, any(|side| side.rows > MANY && side.rising)),
        (FALLING, any(|side| side.rows > MANY && side.falling)),
    ];
    let of_table = kinds.into_iter().filter(|(_, is)| *is);
    of_table.map(|(kind, _)| kind).collect()
}

/// How the stretches of one side lie to each other.
struct Lying {
    rows: usize,
    empty_rows: bool,
    rising: bool,
    falling: bool,
    past_32_bits: bool,
    /// Rows, from 0, under each of which many others begin.
    long_rows: Vec<usize>,
    overlap: bool,
    touching: bool,
    nested: bool,
    /// Stretches that are left where those that overlap or touch are joined.
    separate: usize,
}

impl Lying {
    fn of(stretches: Vec<Stretch>) -> Lying {
        let mut lying = Lying {
            rows: stretches.len(),
            empty_rows: stretches.iter().any(Stretch::is_empty),
            rising: stretches.is_sorted_by(|s, next| s.start < next.start),
            falling: stretches.is_sorted_by(|s, next| s.start > next.start),
            past_32_bits: stretches.iter().any(|s| s.end > 1 << 32),
            long_rows: long_rows(&stretches),
            overlap: false,
            touching: false,
            nested: false,
            separate: 0,
        };
        lying.join(stretches);
        lying
    }

    fn has_long_row_last(&self) -> bool {
        self.long_rows
            .last()
            .is_some_and(|row| row + 1 == self.rows)
    }

    /// From left to right, each stretch beside the one that those before it make.
    fn join(&mut self, mut stretches: Vec<Stretch>) {
        stretches.retain(|s| !s.is_empty());
        stretches.sort_unstable_by_key(|s| (s.start, s.end));
        let mut joined: Option<Stretch> = None;
        for stretch in stretches {
            match &mut joined {
                Some(before) if stretch.start <= before.end => {
                    self.overlap |= stretch.start < before.end;
                    self.touching |= stretch.start == before.end;
                    self.nested |= stretch.end < before.end;
                    before.end = before.end.max(stretch.end);
                }
                _ => {
                    self.separate += 1;
                    joined = Some(stretch);
                }
            }
        }
    }
}

fn long_rows(stretches: &[Stretch]) -> Vec<usize> {
    let mut starts: Vec<u64> = stretches.iter().map(|s| s.start).collect();
    starts.sort_unstable();
    let before = |end| starts.partition_point(|&start| start < end);
    let others_under = |s: &Stretch| before(s.end).saturating_sub(before(s.start) + 1);
    let rows = 0..stretches.len();
    rows.filter(|&row| others_under(&stretches[row]) > MANY)
        .collect()
}
