//! How many inputs each group gave, how often each outcome was met, and with how many values.

use crate::slow::refusal::Refusal;
use std::collections::{BTreeMap, BTreeSet};
use std::fmt;

#[derive(Clone, Copy, PartialEq, Eq, PartialOrd, Ord)]
pub enum Outcome {
    Success,
    /// The refusal of this number.
    Refused(u32),
    /// From what a success gave, the door that undoes it gave back the input.
    Undone,
    /// No call: the input of a call, which is counted by its answer, was of this kind.
    Kind(&'static str),
}

impl Outcome {
    fn is_a_call(self) -> bool {
        !matches!(self, Outcome::Kind(_))
    }
}

/// What must be met of one outcome at least, so that a generator's fault cannot hide.
pub struct Need {
    outcome: Outcome,
    times: usize,
    /// Different places of a refusal, or different values of another outcome.
    values: usize,
    /// A value that must be among them.
    value: Option<usize>,
}

impl Need {
    pub const fn success(times: usize, values: usize) -> Need {
        Need::of(Outcome::Success, times, values)
    }

    pub const fn success_with(value: usize) -> Need {
        Need {
            value: Some(value),
            ..Need::success(1, 1)
        }
    }

    pub const fn refused(number: u32, times: usize, values: usize) -> Need {
        Need::of(Outcome::Refused(number), times, values)
    }

    pub const fn refused_at(number: u32, place: usize) -> Need {
        Need {
            value: Some(place),
            ..Need::refused(number, 1, 1)
        }
    }

    pub const fn undone(times: usize, values: usize) -> Need {
        Need::of(Outcome::Undone, times, values)
    }

    pub const fn kind(name: &'static str, times: usize, values: usize) -> Need {
        Need::of(Outcome::Kind(name), times, values)
    }

    pub const fn kind_with(name: &'static str, value: usize) -> Need {
        Need {
            value: Some(value),
            ..Need::kind(name, 1, 1)
        }
    }

    const fn of(outcome: Outcome, times: usize, values: usize) -> Need {
        Need {
            outcome,
            times,
            values,
            value: None,
        }
    }

    fn is_met_by(&self, met: &Met) -> bool {
        met.times >= self.times
            && met.values.len() >= self.values
            && self.value.is_none_or(|value| met.values.contains(&value))
    }
}

/// 1 and 5 are found only at the first command, 6 only at match 2,049, and 19 only at mark 513.
pub const REFUSALS_OF_SCRIPTS: &[Need] = &[
    Need::refused(1, 100, 1),
    Need::refused(2, 100, 10),
    Need::refused(3, 100, 20),
    Need::refused(4, 100, 10),
    Need::refused(5, 100, 1),
    Need::refused(6, 100, 5),
    Need::refused(7, 100, 10),
    Need::refused(8, 100, 10),
    Need::refused(9, 100, 10),
    Need::refused(10, 100, 10),
    Need::refused(19, 100, 5),
    Need::refused(20, 100, 10),
    Need::refused(21, 100, 10),
];

/// The counts of one part.
pub struct Tally {
    name: &'static str,
    needs: &'static [&'static [Need]],
    groups: BTreeMap<&'static str, usize>,
    outcomes: BTreeMap<Outcome, Met>,
}

#[derive(Default)]
struct Met {
    times: usize,
    values: BTreeSet<usize>,
}

impl Tally {
    pub fn new(name: &'static str, needs: &'static [&'static [Need]]) -> Tally {
        Tally {
            name,
            needs,
            groups: BTreeMap::new(),
            outcomes: BTreeMap::new(),
        }
    }

    /// Counts an input of `group`, whose calls come next.
    pub fn begin(&mut self, group: &'static str) {
        *self.groups.entry(group).or_default() += 1;
    }

    /// Counts a call by its answer: a value of the success, or a refusal.
    pub fn met(&mut self, answer: Result<usize, Refusal>) {
        match answer {
            Ok(value) => self.met_outcome(Outcome::Success, value),
            Err(refusal) => self.met_outcome(Outcome::Refused(refusal.number()), refusal.place),
        }
    }

    pub fn met_outcome(&mut self, outcome: Outcome, value: usize) {
        let met = self.outcomes.entry(outcome).or_default();
        met.times += 1;
        met.values.insert(value);
    }

    pub fn inputs(&self) -> usize {
        self.groups.values().sum()
    }

    pub fn calls(&self) -> usize {
        let calls = self.outcomes.iter().filter(|(met, _)| met.is_a_call());
        calls.map(|(_, met)| met.times).sum()
    }

    /// An outcome that was met too seldom to say anything of it.
    pub fn too_seldom(&self) -> Option<String> {
        let never = Met::default();
        self.needs.iter().copied().flatten().find_map(|need| {
            let met = self.outcomes.get(&need.outcome).unwrap_or(&never);
            (!need.is_met_by(met)).then(|| {
                let (times, different) = (met.times, met.values.len());
                let value = need.value.map(|value| format!(", never with {value}"));
                format!(
                    "{}: {} was met {times} times, with {different} values{}",
                    self.name,
                    need.outcome,
                    value.unwrap_or_default()
                )
            })
        })
    }
}

impl fmt::Display for Outcome {
    fn fmt(&self, f: &mut fmt::Formatter<'_>) -> fmt::Result {
        match self {
            Outcome::Success => f.write_str("success"),
            Outcome::Refused(number) => write!(f, "refusal {number}"),
            Outcome::Undone => f.write_str("undone by the other door"),
            Outcome::Kind(name) => f.write_str(name),
        }
    }
}

impl fmt::Display for Tally {
    fn fmt(&self, f: &mut fmt::Formatter<'_>) -> fmt::Result {
        let (inputs, calls) = (self.inputs(), self.calls());
        writeln!(f, "{}: {inputs} inputs, {calls} calls", self.name)?;
        for (group, inputs) in &self.groups {
            writeln!(f, "{inputs:>9}            {group}")?;
        }
        for (outcome, Met { times, values }) in &self.outcomes {
            let different = values.len();
            writeln!(f, "{times:>9} {different:>9}  {outcome}")?;
        }
        Ok(())
    }
}
