//! The proved refining beside plain Rust.

pub mod cases;
pub mod marks;
mod plain;
#[cfg(feature = "seqan")]
mod seqan;
pub mod shapes;
mod sorted;

use cases::Case;
use compare::door::{self, Refining};
use compare::slow::refusal::Refusal;
use compare::slow::report::ROWS;
use compare::slow::table::{self, NUMBERS_OF_A_ROW, WORK_OF_A_ROW};
use plain::{refine, Hashed, Ordered};
use std::hint::black_box;

/// A plain refiner: the count of rows, which stand at the table's start.
pub type Rival = fn(&[u8], &mut [u32]) -> Result<usize, Refusal>;

pub const TREE: Rival = refine::<Ordered>;
pub const HASH: Rival = refine::<Hashed>;
pub const SORTED: Rival = sorted::refine;

pub fn run() {
    println!();
    println!(
        "{:<28} {:>12} {:>11} {:>11} {:>6} {:>11} {:>6} {:>11} {:>6} {:>7}",
        "refining",
        "rows",
        "Rattle us",
        "tree us",
        "ratio",
        "hash us",
        "ratio",
        "sorted us",
        "ratio",
        "to best"
    );
    let cases = cases::all();
    let mut zigzags = Vec::new();
    for case in &cases {
        let rows = checked_rows(case);
        let times = report(case, &rows);
        if case.name == "zigzag" {
            zigzags.push((case.capacity, times));
        }
    }
    println!("Rattle: notchergrey_refine. tree, hash: plain Rust with sets of either kind.");
    println!("sorted: plain Rust with sorted ends and an index of the gaps between them.");
    println!("to best: the ratio to the fastest of the three.");
    report_growth(&zigzags);
    #[cfg(feature = "seqan")]
    seqan::run(&cases);
}

/// Times of Rattle and of the three plain ones.
type Times = [f64; 4];

fn report(case: &Case, rows: &str) -> Times {
    let mut lent = Lent::to(case.capacity);
    let empty = &lent.table.clone();
    let [mut tree, mut hash, mut sorted] = [TREE, HASH, SORTED].map(|rival| {
        let mut table = empty.clone();
        move |script: &Vec<u8>| _ = black_box(rival(script, &mut table))
    });
    let rattle = &mut |script: &Vec<u8>| _ = black_box(lent.refine(script));
    let times = case.microseconds([rattle, &mut tree, &mut hash, &mut sorted]);
    let [rattle, tree, hash, sorted] = times;
    println!(
        "{:<28} {:>12} {:>11.1} {:>11.1} {:>6.2} {:>11.1} {:>6.2} {:>11.1} {:>6.2} {:>7.2}",
        case.name,
        rows,
        rattle,
        tree,
        rattle / tree,
        hash,
        rattle / hash,
        sorted,
        rattle / sorted,
        rattle / tree.min(hash).min(sorted)
    );
    times
}

/// How the times of the longest zigzag stand to those of the one before.
fn report_growth(zigzags: &[(usize, Times)]) {
    let [.., (fewer, before), (more, after)] = zigzags else {
        return;
    };
    let [rattle, tree, hash, sorted] = std::array::from_fn(|i| after[i] / before[i]);
    println!("zigzag of {more} rows, as a multiple of {fewer}: Rattle {rattle:.1}, tree {tree:.1}, hash {hash:.1},");
    println!("sorted {sorted:.1}.");
}

/// What the proved refining is lent.
pub struct Lent {
    pub table: Vec<u32>,
    work: Vec<u32>,
    numbers: Refining,
}

impl Lent {
    pub fn to(capacity: usize) -> Lent {
        Lent {
            table: vec![0; capacity * NUMBERS_OF_A_ROW],
            work: vec![0; capacity * WORK_OF_A_ROW],
            numbers: Refining { place: 0, rows: 0 },
        }
    }

    pub fn refine(&mut self, script: &[u8]) -> u32 {
        self.refine_within(self.table.len() / NUMBERS_OF_A_ROW, script)
    }

    /// With no more than so many rows of what is lent.
    pub fn refine_within(&mut self, capacity: usize, script: &[u8]) -> u32 {
        let table = &mut self.table[..capacity * NUMBERS_OF_A_ROW];
        let work = &mut self.work[..capacity * WORK_OF_A_ROW];
        door::refine(script, table, work, &mut self.numbers)
    }

    /// What the last call wrote, if it was no refusal.
    pub fn rows(&self) -> &[u32] {
        &self.table[..self.numbers.rows * NUMBERS_OF_A_ROW]
    }
}

/// Refiners that disagree are not worth timing. Gives the mean of the scripts' rows, or a refusal.
fn checked_rows(case: &Case) -> String {
    let check = |script: &Vec<u8>| check(&case.name, case.capacity, script);
    let answers = case.scripts.iter().map(check);
    let all: Result<Vec<usize>, Refusal> = answers.collect();
    match all {
        Ok(rows) => (rows.iter().sum::<usize>() / rows.len()).to_string(),
        Err(refusal) => refusal.to_string(),
    }
}

fn check(name: &str, capacity: usize, script: &[u8]) -> Result<usize, Refusal> {
    let mut lent = Lent::to(capacity);
    let mut wanted = lent.table.clone();
    let answer = TREE(script, &mut wanted);
    for rival in [HASH, SORTED] {
        let mut table = vec![0; wanted.len()];
        assert_eq!(rival(script, &mut table), answer, "{name}");
        assert!(table == wanted, "{name}: two tables of plain Rust");
    }
    if capacity <= ROWS {
        let mut slow = Lent::to(capacity);
        let slow_answer = table::refine(script, &mut slow.table, &mut slow.work);
        assert_eq!(slow_answer, answer, "{name}");
        assert!(slow.table == wanted, "{name}: not the least table");
    }
    let number = lent.refine(script);
    assert_eq!(number, Refusal::number_in(&answer), "{name}");
    assert!(lent.table == wanted, "{name}: not the proved table");
    if let Ok(rows) = answer {
        assert_eq!(lent.numbers.rows, rows, "{name}");
    }
    answer
}

/// Of a script that has no more than 1,000,000 rows.
fn rows_of(script: &[u8]) -> usize {
    let mut table = vec![0; 1_000_000 * NUMBERS_OF_A_ROW];
    SORTED(script, &mut table).expect("no refusal")
}
