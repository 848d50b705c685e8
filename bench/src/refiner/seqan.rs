//! SeqAn, the library of the method's authors: held to the proved tables, and timed beside them.

use super::cases::Case;
use super::Lent;
use compare::groups::{EVERY_TINY_SCRIPT, SHAPES};
use compare::random::Random;
use compare::slow::report::ROWS;
use compare::slow::table::NUMBERS_OF_A_ROW;
use std::collections::BTreeSet;
use std::hint::black_box;

/// SeqAn takes minutes for more.
const MOST_ROWS: usize = 1_000_000;

/// Left-A, left-B, the length on A and the length on B.
type Edge = [usize; 4];

extern "C" {
    fn seqan_refine(script: *const u8, script_len: usize) -> usize;

    fn seqan_edges(
        script: *const u8,
        script_len: usize,
        edges: *mut Edge,
        edges_len: usize,
    ) -> usize;
}

pub fn run(cases: &[Case]) {
    println!();
    println!(
        "{:<28} {:>12} {:>12} {:>12} {:>12} {:>6}",
        "beside SeqAn", "rows", "edges", "Rattle us", "SeqAn us", "ratio"
    );
    for case in cases.iter().filter(|case| case.capacity <= MOST_ROWS) {
        report(case);
    }
    println!("SeqAn: matchRefinement. Its edges are the table's stretches, each once, in each case");
    println!("and in {} small scripts of many shapes.", small_scripts());
}

/// Cases that are refused are left out: SeqAn has no capacity and would make all their pieces.
fn report(case: &Case) {
    let mut lent = Lent::to(case.capacity);
    let Some(counts) = counts_of_all(&mut lent, &case.scripts) else {
        return;
    };
    let mean = |count: fn(&Counts) -> usize| counts.iter().map(count).sum::<usize>() / counts.len();
    let [rattle, seqan] = case.microseconds([
        &mut |script| {
            black_box(lent.refine(script));
        },
        &mut |script| {
            black_box(refine(script));
        },
    ]);
    println!(
        "{:<28} {:>12} {:>12} {:>12.1} {:>12.1} {:>6.2}",
        case.name,
        mean(|counts| counts.rows),
        mean(|counts| counts.edges),
        rattle,
        seqan,
        rattle / seqan
    );
}

fn small_scripts() -> usize {
    let mut random = Random::from_seed(2002);
    let mut lent = Lent::to(ROWS);
    let groups = EVERY_TINY_SCRIPT.iter().chain(SHAPES);
    let scripts = groups.flat_map(|group| (group.draw)(&mut random));
    scripts
        .filter_map(|script| counts_of(&mut lent, &script))
        .count()
}

struct Counts {
    rows: usize,
    edges: usize,
}

fn counts_of_all(lent: &mut Lent, scripts: &[Vec<u8>]) -> Option<Vec<Counts>> {
    scripts
        .iter()
        .map(|script| counts_of(lent, script))
        .collect()
}

/// None if the script is refused. An edge joins the two stretches of a piece, once however many
/// matches have them, direct or reversed: so the edges must be the pieces that differ in their
/// stretches.
fn counts_of(lent: &mut Lent, script: &[u8]) -> Option<Counts> {
    if lent.refine(script) != 0 {
        return None;
    }
    let rows = lent.numbers.rows;
    let table = &lent.table[..rows * NUMBERS_OF_A_ROW];
    let stretches: BTreeSet<Edge> = table
        .chunks_exact(NUMBERS_OF_A_ROW)
        .map(|row| [row[1], row[2], row[3], row[3]].map(|number| number as usize))
        .collect();
    let mut lent_edges = vec![[0; 4]; stretches.len()];
    let edges = edges(script, &mut lent_edges);
    assert_eq!(edges, stretches.len(), "{script:?}");
    assert!(
        stretches.iter().eq(&BTreeSet::from_iter(lent_edges)),
        "{script:?}"
    );
    Some(Counts { rows, edges })
}

// SAFETY, in both functions: the door takes a pointer and a length as one slice, from a borrow that
// lasts through the call, and the script is one that the proved program has read without refusal.

fn refine(script: &[u8]) -> usize {
    unsafe { seqan_refine(script.as_ptr(), script.len()) }
}

/// Returns the count of all edges; no more are written than there is room for.
fn edges(script: &[u8], lent: &mut [Edge]) -> usize {
    unsafe { seqan_edges(script.as_ptr(), script.len(), lent.as_mut_ptr(), lent.len()) }
}
