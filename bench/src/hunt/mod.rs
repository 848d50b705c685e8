//! A search for the scripts whose refining takes longest beside plain Rust: it changes what it has
//! and keeps what is worse, for scripts with a table and for those with too many pieces.

mod candidate;
mod scales;

use candidate::Candidate;
use compare::random::Random;
use scales::{Kind, Scales, Weight};
use std::path::Path;
use std::time::{Duration, Instant};

const BEGINNINGS: usize = 8;
const MOST_IN_VAIN: usize = 40;

/// Hunts for so long, and prints the worst scripts. If there is a folder, they are written to it.
pub fn run(time: Duration, seed: u64, folder: Option<&Path>) {
    let start = Instant::now();
    let mut hunt = Hunt {
        random: Random::from_seed(seed),
        scales: Scales::new(),
        deadline: start + time,
    };
    let mut worst = [None, None];
    while Instant::now() < hunt.deadline {
        for (kind, worst) in [Kind::Table, Kind::Refused].into_iter().zip(&mut worst) {
            let begin = hunt.beginning(kind, worst);
            let found = begin.map(|begin| hunt.climb(kind, begin));
            *worst = heavier(worst.take(), found);
        }
    }
    let tried = hunt.scales.tried;
    println!("hunt: seed {seed}, {} s, {tried} scripts", time.as_secs());
    for (kind, worst) in [Kind::Table, Kind::Refused].into_iter().zip(&worst) {
        report(kind, worst.as_ref(), folder);
    }
}

/// A script and what was measured of it.
#[derive(Clone)]
struct Found {
    candidate: Candidate,
    weight: Weight,
}

fn heavier(one: Option<Found>, other: Option<Found>) -> Option<Found> {
    let ratio = |found: &Found| found.weight.ratio();
    one.into_iter()
        .chain(other)
        .max_by(|one, other| ratio(one).total_cmp(&ratio(other)))
}

struct Hunt {
    random: Random,
    scales: Scales,
    deadline: Instant,
}

impl Hunt {
    /// The worst of some drawn scripts or, each third time, of the whole hunt so far.
    fn beginning(&mut self, kind: Kind, worst: &Option<Found>) -> Option<Found> {
        if worst.is_some() && self.random.between(0, 2) == 0 {
            return worst.clone();
        }
        let mut begin = None;
        for _ in 0..BEGINNINGS {
            let drawn = Candidate::drawn(&mut self.random);
            begin = heavier(begin, self.weighed(kind, drawn, 0.0));
        }
        begin
    }

    fn climb(&mut self, kind: Kind, begin: Found) -> Found {
        let mut here = begin;
        let mut in_vain = 0;
        while in_vain < MOST_IN_VAIN && Instant::now() < self.deadline {
            in_vain += 1;
            let changed = here.candidate.changed(&mut self.random);
            if let Some(worse) = self.weighed(kind, changed, here.weight.ratio()) {
                here = worse;
                in_vain = 0;
            }
        }
        here
    }

    /// None if the script is not of the kind, takes too short a time or has no worse ratio.
    fn weighed(&mut self, kind: Kind, mut candidate: Candidate, ratio: f64) -> Option<Found> {
        self.scales.fit(kind, &mut candidate)?;
        let weight = self.scales.weigh(&candidate, ratio)?;
        Some(Found { candidate, weight })
    }
}

fn report(kind: Kind, worst: Option<&Found>, folder: Option<&Path>) {
    let name = match kind {
        Kind::Table => "table",
        Kind::Refused => "refused",
    };
    let Some(Found { candidate, weight }) = worst else {
        println!("{name}: none");
        return;
    };
    println!("{name}: {candidate}, {weight}");
    if let Some(folder) = folder {
        let file = folder.join(format!("{name}.script"));
        std::fs::write(&file, candidate.script()).expect("a folder to write to");
    }
}
