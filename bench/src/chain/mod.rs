//! The proved backbone beside plain Rust that is given the finished table.

mod cases;
mod plain;

use crate::timing::Timing;
use cases::Case;
use compare::door::{self, Chaining, Refining};
use compare::slow::chaining::{backbone, MOST_PRICE};
use compare::slow::refinement::Piece;
use compare::slow::report::ROWS;
use compare::slow::table::{NUMBERS_OF_A_ROW, WORK_OF_A_ROW};
use plain::{best_chain, best_chain_of_pairs, Chain};
use std::hint::black_box;

const PRICES: [u32; 3] = [0, 1, MOST_PRICE];
/// For more, all pairs of rows would take too long.
const MOST_ROWS_IN_PAIRS: usize = 10_000;

pub fn run() {
    println!();
    println!(
        "{:<21} {:>7} {:>5} {:>7} {:>10} {:>10} {:>6} {:>10} {:>6} {:>6} {:>9} {:>6}",
        "backbone",
        "rows",
        "price",
        "chain",
        "Rattle us",
        "refine us",
        "ratio",
        "Rust us",
        "ratio",
        "beyond",
        "pairs us",
        "beyond"
    );
    for case in cases::all() {
        let table = refined(&case);
        for price in PRICES {
            let length = check(&case, &table, price);
            report(&case, &table, price, length);
        }
    }
    println!("Rattle: notchergrey_chain, which refines first. refine: notchergrey_refine alone, and the ratio to it.");
    println!("Rust: plain Rust that is given the table, and the call's ratio to refining and this together.");
    println!("pairs: plain Rust that goes through all pairs of rows.");
    println!("beyond: what the call takes beyond refining, over the plain time before it.");
}

fn report(case: &Case, table: &[u32], price: u32, length: usize) {
    let rows = table.len() / NUMBERS_OF_A_ROW;
    let [rattle, refine, rust, pairs] = microseconds(&case.script, table, price);
    let beyond = rattle - refine;
    print!(
        "{:<21} {:>7} {:>5} {:>7} {:>10.1} {:>10.1} {:>6.2} {:>10.1} {:>6.2} {:>6.2}",
        case.name,
        rows,
        price,
        length,
        rattle,
        refine,
        rattle / refine,
        rust,
        rattle / (refine + rust),
        beyond / rust
    );
    if rows <= MOST_ROWS_IN_PAIRS {
        println!(" {:>9.1} {:>6.2}", pairs, beyond / pairs);
    } else {
        println!(" {:>9} {:>6}", "-", "-");
    }
}

/// Of the call, of refining alone, and of plain Rust in n log n and in n² steps.
fn microseconds(script: &[u8], table: &[u32], price: u32) -> [f64; 4] {
    let rows = table.len() / NUMBERS_OF_A_ROW;
    let mut chaining = Lent::to(rows);
    let mut refining = Lent::to(rows);
    let timing = Timing {
        calls: 1,
        inputs: &[(script, table)],
    };
    let times = timing.medians([
        &mut |(script, _)| _ = black_box(chaining.chain(script, price)),
        &mut |(script, _)| _ = black_box(refining.refine(script)),
        &mut |(_, table)| _ = black_box(best_chain(table, price)),
        &mut |(_, table)| {
            if rows <= MOST_ROWS_IN_PAIRS {
                black_box(best_chain_of_pairs(table, price));
            }
        },
    ]);
    times.map(|nanoseconds| nanoseconds / 1e3)
}

/// What the proved calls are lent.
struct Lent {
    table: Vec<u32>,
    work: Vec<u32>,
    chain: Vec<u32>,
    scores: Vec<u32>,
    refined: Refining,
    found: Chaining,
}

/// What no call writes behind a chain.
const RUBBISH: u32 = u32::MAX;

impl Lent {
    fn to(capacity: usize) -> Lent {
        Lent {
            table: vec![RUBBISH; capacity * NUMBERS_OF_A_ROW],
            work: vec![RUBBISH; capacity * WORK_OF_A_ROW],
            chain: vec![RUBBISH; capacity],
            scores: vec![RUBBISH; capacity],
            refined: Refining { place: 0, rows: 0 },
            found: Chaining {
                place: 0,
                score: 0,
                rows: 0,
                length: 0,
            },
        }
    }

    fn refine(&mut self, script: &[u8]) -> u32 {
        door::refine(script, &mut self.table, &mut self.work, &mut self.refined)
    }

    fn chain(&mut self, script: &[u8], price: u32) -> u32 {
        door::chain(
            script,
            price,
            &mut self.table,
            &mut self.work,
            &mut self.chain,
            &mut self.scores,
            &mut self.found,
        )
    }
}

/// The proved table, without room for more.
fn refined(case: &Case) -> Vec<u32> {
    let mut lent = Lent::to(case.capacity);
    assert_eq!(lent.refine(&case.script), 0, "{}", case.name);
    lent.table.truncate(lent.refined.rows * NUMBERS_OF_A_ROW);
    lent.table
}

/// Chains that disagree are not worth timing. Gives their length.
fn check(case: &Case, table: &[u32], price: u32) -> usize {
    let name = case.name;
    let rows = table.len() / NUMBERS_OF_A_ROW;
    let wanted = best_chain(table, price);
    if rows <= MOST_ROWS_IN_PAIRS {
        let of_pairs = best_chain_of_pairs(table, price);
        assert!(of_pairs == wanted, "{name}: two chains of plain Rust");
    }
    if rows <= ROWS {
        let slow = backbone(&pieces(table), price);
        assert_eq!(slow.score, wanted.score, "{name}");
        assert!(slow.chain == wanted.rows, "{name}: not the slow chain");
    }
    let Chain { score, rows: chain } = wanted;
    let mut lent = Lent::to(rows);
    assert_eq!(lent.chain(&case.script, price), 0, "{name}");
    assert_eq!(lent.found.score, score, "{name}");
    assert_eq!(
        (lent.found.rows, lent.found.length),
        (rows, chain.len()),
        "{name}"
    );
    let (found, kept) = lent.chain.split_at(chain.len());
    assert!(found == chain, "{name}: not the proved chain");
    assert!(
        kept.iter().all(|&number| number == RUBBISH),
        "{name}: the chain goes on"
    );
    assert!(lent.table == table, "{name}: not the table of refining");
    let mut zeros = lent.work.iter().chain(&lent.scores);
    assert!(
        zeros.all(|&number| number == 0),
        "{name}: work or scores left"
    );
    chain.len()
}

fn pieces(table: &[u32]) -> Vec<Piece> {
    let piece = |row: &[u32]| Piece {
        number: row[0],
        left_a: row[1].into(),
        left_b: row[2].into(),
        length: row[3].into(),
        reversed: row[4] == 1,
    };
    table.chunks_exact(NUMBERS_OF_A_ROW).map(piece).collect()
}
