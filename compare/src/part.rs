//! A part of the differential run: one door, the inputs that are put to it and to the slow program,
//! and what must be met before the part says anything.

use crate::random::Random;
use crate::tally::{Need, Tally};
use std::fmt;

/// An input is a list of `Element`s: the bytes of a script, the numbers of a table, or those of a list
/// for the writer.
pub struct Part<Element: 'static> {
    /// The door's name.
    pub name: &'static str,
    /// Groups that a run needs once.
    pub once: &'static [Groups<Element>],
    /// Groups that are drawn anew until there were enough inputs.
    pub each_round: &'static [Groups<Element>],
    /// At least so many inputs are compared.
    pub least: usize,
    pub compare: Compare<Element>,
    pub needs: &'static [&'static [Need]],
}

pub type Groups<Element> = &'static [Group<Element>];

pub struct Group<Element> {
    pub name: &'static str,
    pub draw: fn(&mut Random) -> Vec<Vec<Element>>,
}

/// Puts an input to both programs, lends rubbish from the generator, and counts what was met. The
/// error says what differs.
pub type Compare<Element> = fn(&[Element], &mut Random, &mut Tally) -> Result<(), String>;

/// What an input consists of, and how an input is shown to people.
pub trait Element: Sized {
    fn shown(input: &[Self]) -> String;
}

/// Two answers that should be the same and are not.
#[derive(Debug)]
pub struct Difference {
    part: &'static str,
    group: &'static str,
    input: String,
    what: String,
}

/// How often the groups of each round are drawn.
#[derive(Clone, Copy)]
pub enum Amount {
    /// Until there were so many times the part's least number of inputs.
    Times(usize),
    /// In so many rounds, which may be too few to show anything.
    Rounds(usize),
}

impl<E: Element> Part<E> {
    /// The inputs and the rubbish come from two generators, so that one seed gives the same inputs
    /// whatever is lent.
    pub fn run(&self, seed: u64, amount: Amount) -> Result<Tally, Difference> {
        let mut for_inputs = Random::from_seed(seed);
        let mut for_rubbish = Random::from_seed(!seed);
        let mut tally = Tally::new(self.name, self.needs);
        let once = self.once.iter().copied().flatten();
        for group in once {
            self.run_group(group, &mut for_inputs, &mut for_rubbish, &mut tally)?;
        }
        let each_round = self.each_round.iter().copied().flatten();
        let mut rounds = 0;
        while self.needs_a_round(amount, rounds, &tally) {
            for group in each_round.clone() {
                self.run_group(group, &mut for_inputs, &mut for_rubbish, &mut tally)?;
            }
            rounds += 1;
        }
        Ok(tally)
    }

    fn needs_a_round(&self, amount: Amount, rounds: usize, tally: &Tally) -> bool {
        match amount {
            Amount::Times(times) => tally.inputs() < self.least * times,
            Amount::Rounds(wanted) => rounds < wanted,
        }
    }

    fn run_group(
        &self,
        group: &Group<E>,
        for_inputs: &mut Random,
        for_rubbish: &mut Random,
        tally: &mut Tally,
    ) -> Result<(), Difference> {
        for input in (group.draw)(for_inputs) {
            tally.begin(group.name);
            (self.compare)(&input, for_rubbish, tally).map_err(|what| Difference {
                part: self.name,
                group: group.name,
                input: E::shown(&input),
                what,
            })?;
        }
        Ok(())
    }
}

/// How long a buffer is lent where so much is needed: not at all, any length that is too short, one
/// less, just enough, one more and some more; each length once.
pub fn lengths_around(needed: usize, random: &mut Random) -> Vec<usize> {
    let one_less = needed.saturating_sub(1);
    let any_less = random.count_between(0, one_less);
    let some_more = needed + random.count_between(2, 100);
    let mut lengths = vec![0, any_less, one_less, needed, needed + 1, some_more];
    lengths.sort_unstable();
    lengths.dedup();
    lengths
}

/// Holds one number to what was wanted.
pub fn same<T: PartialEq + fmt::Display>(name: &str, wanted: T, got: T) -> Result<(), String> {
    if wanted == got {
        return Ok(());
    }
    Err(format!("{name} is {got}, wanted {wanted}"))
}

/// Holds each number of a lent buffer to what was wanted.
pub fn same_all<T: PartialEq + fmt::Display>(
    name: &str,
    wanted: &[T],
    got: &[T],
) -> Result<(), String> {
    let different = wanted
        .iter()
        .zip(got)
        .position(|(wanted, got)| wanted != got);
    different.map_or(Ok(()), |i| {
        same(&format!("{name}[{i}]"), &wanted[i], &got[i])
    })
}

impl fmt::Display for Difference {
    fn fmt(&self, f: &mut fmt::Formatter<'_>) -> fmt::Result {
        writeln!(f, "{}, in the group \"{}\"", self.part, self.group)?;
        writeln!(f, "{}", self.input)?;
        write!(f, "the first difference: {}", self.what)
    }
}

impl Element for u8 {
    fn shown(script: &[u8]) -> String {
        let bytes = both_ends(script, |byte| format!("{byte:02X} "));
        format!("script ({} bytes): {bytes}", script.len())
    }
}

impl Element for u32 {
    fn shown(input: &[u32]) -> String {
        let numbers = both_ends(input, |number| format!("{number} "));
        format!("{} numbers: {numbers}", input.len())
    }
}

/// All of a short input; of a long one its beginning and its end.
fn both_ends<T>(input: &[T], one: impl Fn(&T) -> String) -> String {
    const SHOWN: usize = 100;
    let all = |part: &[T]| part.iter().map(&one).collect::<String>();
    if input.len() <= 2 * SHOWN {
        return all(input);
    }
    let (first, last) = (&input[..SHOWN], &input[input.len() - SHOWN..]);
    format!("{}.. .. {}", all(first), all(last))
}
