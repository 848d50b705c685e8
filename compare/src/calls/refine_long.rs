//! `notchergrey_refine` beside the slow program for scripts whose cuts are many or take many turns to
//! find, with tables of many capacities. The slow program finds the pieces of each script once.

use super::refine::{compare_with, just_enough, Lengths};
use crate::groups;
use crate::part::Part;
use crate::random::Random;
use crate::slow::refinement;
use crate::slow::script::{self, Script};
use crate::slow::table::{refine_admitted, NUMBERS_OF_A_ROW};
use crate::tally::{Need, Outcome, Tally};
use crate::turns;

const LATE_BY_MARKS: &str = "33 matches and more, 18 turns and more, for marks alone";
const SHORT_BY_MARKS: &str =
    "33 matches and more, too many pieces, told in turn 18 or later, for marks alone";

pub const PART: Part<u8> = Part {
    name: "notchergrey_refine, many turns and many cuts",
    once: &[groups::LONG_ONCE, groups::LONG_ONCE_WITH_MARKS],
    each_round: &[groups::LONG_EACH_ROUND, groups::LONG_WITH_MARKS],
    least: 12_000,
    compare,
    needs: &[&[
        Need::success(30_000, 1_000),
        Need::refused(12, 20_000, 1),
        Need::kind(turns::LATE_TABLE, 12_000, 2_000),
        Need::kind(turns::LATE_AND_EXACT, 6_000, 800),
        Need::kind(turns::LATE_AND_SHORT, 3_000, 800),
        Need::kind(turns::LATE_BY_FEW, 2_500, 800),
        Need::kind(turns::LATE_BY_MORE, 1_000, 500),
        Need::kind(turns::EARLY_REFUSAL, 6_000, 1_000),
        Need::kind(turns::FEW_CUTS, 12_000, 2_000),
        Need::kind(turns::MORE_CUTS, 5_000, 1_000),
        Need::kind(turns::TOLD, 6_000, 800),
        Need::kind(turns::UNTOLD, 10_000, 1_000),
        Need::kind(turns::TOLD_IN_VAIN, 10_000, 1_000),
        Need::kind(turns::NOTES_GIVE_WAY, 1_000, 300),
        Need::kind(turns::EXACT_512, 2_500, 500),
        Need::kind(turns::SHORT_512, 1_200, 500),
        Need::kind(turns::EXACT_16384, 30, 12),
        Need::kind(turns::SHORT_16384, 15, 12),
        Need::kind(turns::EXACT_40000, 12, 5),
        Need::kind(turns::SHORT_40000, 6, 5),
        Need::kind(LATE_BY_MARKS, 3_000, 500),
        Need::kind(SHORT_BY_MARKS, 1_000, 200),
    ]],
};

/// More rows than these are lent for no script.
const MOST_ROWS: usize = 100_000;

fn compare(bytes: &[u8], random: &mut Random, tally: &mut Tally) -> Result<(), String> {
    let Script { matches, marks, .. } = match script::read(bytes) {
        Ok(script) => script,
        Err(refusal) => return Err(format!("a group drew a script with a fault: {refusal}")),
    };
    let pieces = refinement::least(&matches, &marks, MOST_ROWS);
    let rows = pieces.as_ref().map(Vec::len);
    let turns = turns::of(&matches, &marks, MOST_ROWS);
    let early = !marks.is_empty() && !turns::of(&matches, &[], MOST_ROWS).are_late();
    for lengths in lengths(rows, random) {
        let within = |capacity| pieces.clone().filter(|pieces| pieces.len() <= capacity);
        let slow = |table: &mut [u32], work: &mut [u32]| refine_admitted(within, table, work);
        compare_with(bytes, lengths, slow, random, tally)?;
        let capacity = lengths.table / NUMBERS_OF_A_ROW;
        for kind in turns.kinds(capacity, rows) {
            tally.met_outcome(Outcome::Kind(kind), capacity);
            let by_marks = match kind {
                turns::LATE_TABLE => LATE_BY_MARKS,
                turns::LATE_REFUSAL => SHORT_BY_MARKS,
                _ => continue,
            };
            if early {
                tally.met_outcome(Outcome::Kind(by_marks), capacity);
            }
        }
    }
    Ok(())
}

/// Just as many rows as are needed, one more, one less, half and far more; a work buffer that just
/// suffices, and longer ones. For more rows than are ever lent: some capacities up to the most.
fn lengths(rows: Option<usize>, random: &mut Random) -> Vec<Lengths> {
    let Some(rows) = rows else {
        let any = random.count_between(101, MOST_ROWS - 1);
        return [100, 1_000, 3_000, any, MOST_ROWS]
            .map(just_enough)
            .to_vec();
    };
    let any_less = random.count_between(0, rows.saturating_sub(1));
    let far_more = rows + random.count_between(rows, 3 * rows + 100);
    vec![
        just_enough(rows),
        some_longer(rows, random),
        just_enough(rows + 1),
        just_enough(rows.saturating_sub(1)),
        just_enough(rows / 2),
        some_longer(any_less, random),
        some_longer(far_more, random),
    ]
}

/// So many rows, numbers behind them that form none, and work for more rows.
fn some_longer(rows: usize, random: &mut Random) -> Lengths {
    let enough = just_enough(rows);
    Lengths {
        table: enough.table + random.count_between(0, 4),
        work: enough.work + random.count_between(1, 1_000),
    }
}
