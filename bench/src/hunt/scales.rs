//! What a script takes: the proved refining beside the fastest plain one.

use super::candidate::{Candidate, LEAST_ROWS, MOST_ROWS};
use crate::refiner::{Lent, Rival, HASH, SORTED};
use crate::timing::nanoseconds;
use compare::slow::refusal::Refusal;
use compare::slow::table::{NUMBERS_OF_A_ROW, WORK_OF_A_ROW};
use std::fmt;
use std::hint::black_box;

/// The tree is nowhere the fastest.
const RIVALS: [Rival; 2] = [HASH, SORTED];

/// Below that a time is mostly noise.
const LEAST_NANOSECONDS: f64 = 2_000.0;
/// What one measurement should last at least, and some of them at most.
const LONG_ENOUGH: f64 = 20_000.0;
const LONG: f64 = 2_000_000.0;
const FEW: usize = 2;
const MANY: usize = 9;

#[derive(Clone, Copy, PartialEq, Eq)]
pub enum Kind {
    /// All its pieces fit the table.
    Table,
    /// It has too many pieces.
    Refused,
}

/// The least times that were measured, in nanoseconds.
#[derive(Clone, Copy)]
pub struct Weight {
    rattle: f64,
    rust: f64,
}

impl Weight {
    pub fn ratio(&self) -> f64 {
        self.rattle / self.rust
    }
}

impl fmt::Display for Weight {
    fn fmt(&self, f: &mut fmt::Formatter<'_>) -> fmt::Result {
        let (rattle, rust) = (self.rattle / 1e3, self.rust / 1e3);
        write!(
            f,
            "Rattle {rattle:.1} us, Rust {rust:.1} us, ratio {:.2}",
            self.ratio()
        )
    }
}

pub struct Scales {
    lent: Lent,
    table: Vec<u32>,
    work: Vec<u32>,
    pub tried: usize,
}

impl Scales {
    pub fn new() -> Scales {
        let lent = Lent::to(MOST_ROWS);
        let table = lent.table.clone();
        Scales {
            lent,
            table,
            work: vec![0; MOST_ROWS * WORK_OF_A_ROW],
            tried: 0,
        }
    }

    /// Changes the capacity so that the script is of this kind, if it can be.
    pub fn fit(&mut self, kind: Kind, candidate: &mut Candidate) -> Option<()> {
        let rows = SORTED(&candidate.script(), &mut self.table).ok();
        candidate.rows = rows;
        candidate.capacity = match kind {
            Kind::Table => candidate.capacity.max(rows?),
            Kind::Refused => candidate.capacity.min(rows.unwrap_or(MOST_ROWS + 1) - 1),
        };
        (candidate.capacity >= LEAST_ROWS).then_some(())
    }

    /// None if all take too short a time, or if the ratio is not above this one. It is measured
    /// again before it is believed.
    pub fn weigh(&mut self, candidate: &Candidate, ratio: f64) -> Option<Weight> {
        let script = candidate.script();
        self.check(&script, candidate.capacity);
        let glance = self.weight(&script, candidate.capacity, FEW);
        if glance.rattle.max(glance.rust) < LEAST_NANOSECONDS || glance.ratio() <= ratio {
            return None;
        }
        let weight = self.weight(&script, candidate.capacity, MANY);
        (weight.ratio() > ratio).then_some(weight)
    }

    /// The same answers and rows of all.
    fn check(&mut self, script: &[u8], capacity: usize) {
        self.tried += 1;
        let number = self.lent.refine_within(capacity, script);
        for rival in RIVALS {
            let table = &mut self.table[..capacity * NUMBERS_OF_A_ROW];
            let answer = rival(script, table);
            assert_eq!(number, Refusal::number_in(&answer), "{script:?}");
            if let Ok(rows) = answer {
                let table = &table[..rows * NUMBERS_OF_A_ROW];
                assert!(self.lent.rows() == table, "two tables of {script:?}");
            }
        }
    }

    fn weight(&mut self, script: &[u8], capacity: usize, most: usize) -> Weight {
        let mut weight = self.measure(script, capacity, 1);
        let once = weight.rattle + weight.rust;
        let calls = (LONG_ENOUGH / once).clamp(1.0, 100.0) as usize;
        let times = ((LONG / once) as usize).clamp(most / 4, most);
        for _ in 0..times {
            let next = self.measure(script, capacity, calls);
            weight.rattle = weight.rattle.min(next.rattle);
            weight.rust = weight.rust.min(next.rust);
        }
        weight
    }

    /// The proved program must leave the work buffer all zero. The plain ones have none: they clear
    /// as many numbers, or few matches in a long table would be the worst that there is.
    fn measure(&mut self, script: &[u8], capacity: usize, calls: usize) -> Weight {
        let lent = &mut self.lent;
        let rattle = nanoseconds(calls, || {
            for _ in 0..calls {
                black_box(lent.refine_within(capacity, script));
            }
        });
        let table = &mut self.table[..capacity * NUMBERS_OF_A_ROW];
        let work = &mut self.work[..capacity * WORK_OF_A_ROW];
        let rivals = RIVALS.map(|rival| {
            nanoseconds(calls, || {
                for _ in 0..calls {
                    black_box(&mut *work).fill(0);
                    _ = black_box(rival(script, table));
                }
            })
        });
        let rust = rivals.into_iter().fold(f64::INFINITY, f64::min);
        Weight { rattle, rust }
    }
}
