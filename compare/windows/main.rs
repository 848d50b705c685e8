// A differential run: tables of any contents counted in windows through their door, and by a set of the pieces. The seed
// is fixed. The last line is 'windows: N tables, 0 differences', and the status 0, only if all counts were the same and
// each kind of table came up; the first difference ends the run. An argument sets the count of tables.
#[path = "door.rs"]
mod door;
#[allow(dead_code)]
#[path = "../src/random.rs"]
mod random;

use random::Random;
use std::collections::BTreeSet;

// The numbers that a window has room for in the proved program: with more pieces than that there are several windows.
const ROOM: usize = 8192;

// Of longer tables than that it looks at about so many rows, at equal distances, to say where a window ends.
const SAMPLES: usize = 4096;

// From the least numbers, from all, or from the greatest.
fn number(random: &mut Random, kind: u32, span: u32) -> u32 {
    match kind {
        0 => random.between(0, span - 1),
        1 => random.any_u32(),
        _ => u32::MAX - random.between(0, span - 1),
    }
}

// All numbers of a row but the match number.
type Piece = [u32; 4];

fn piece(row: &[u32]) -> Piece {
    [row[1], row[2], row[3], row[4]]
}

// Few stretches in all, each piece with the direction that it had.
fn share_stretches(random: &mut Random, pieces: &mut [Piece]) {
    let few = pieces[..pieces.len().min(30)].to_vec();
    for piece in pieces {
        let [a, b, length, _] = random.one_of(&few);
        *piece = [a, b, length, piece[3]];
    }
}

// The greatest pieces where a sample looks: it then says that windows end too late.
fn misleading(pieces: &mut Vec<Piece>) {
    pieces.sort();
    let step = pieces.len() / SAMPLES + 1;
    let mut greatest = pieces.split_off(pieces.len() - pieces.len().div_ceil(step));
    let mut least = std::mem::take(pieces);
    for k in 0..greatest.len() + least.len() {
        let from = if k % step == 0 { &mut greatest } else { &mut least };
        pieces.push(from.pop().expect("there are as many as places for them"));
    }
}

// A table, and whether it misleads.
fn table(random: &mut Random) -> (Vec<u32>, bool) {
    let most = random.one_of(&[4, 40, 400, 3_000, 30_000]);
    let rows = random.count_between(0, most as usize);
    let columns = [0; 4].map(|_| (random.between(0, 2), random.one_of(&[1, 3, 30, most, 1 << 20])));
    let mut pieces: Vec<Piece> = (0..rows)
        .map(|_| columns.map(|(kind, span)| number(random, kind, span)))
        .collect();
    if random.any_bool() {
        pieces = (0..rows).map(|_| random.one_of(&pieces)).collect();
    }
    if random.any_bool() {
        share_stretches(random, &mut pieces);
    }
    let order = random.between(0, 4);
    match order {
        0 => pieces.sort(),
        1 => pieces.sort_by(|r, s| s.cmp(r)),
        2 => misleading(&mut pieces),
        _ => (),
    }
    let mut table: Vec<u32> = pieces
        .iter()
        .flat_map(|[a, b, length, direction]| [random.between(0, 8), *a, *b, *length, *direction])
        .collect();
    let others = random.count_between(0, 4);
    table.extend(random.any_numbers(others));
    (table, order == 2)
}

fn main() {
    let tables: usize = std::env::args().nth(1).map_or(4_000, |n| n.parse().expect("a count of tables"));
    let mut random = Random::from_seed(2002);
    let (mut empty, mut repeated, mut mirrored, mut several, mut misled) = (0, 0, 0, 0, 0);
    for number in 0..tables {
        let (table, misleads) = table(&mut random);
        let pieces: BTreeSet<Piece> = table.chunks_exact(5).map(piece).collect();
        let counted = door::count(&table);
        if counted != pieces.len() {
            eprintln!("windows: table {number} has {} distinct pieces, and {counted} were counted", pieces.len());
            std::process::exit(1);
        }
        empty += usize::from(pieces.is_empty());
        repeated += usize::from(0 < pieces.len() && pieces.len() < table.len() / 5);
        let stretches: BTreeSet<&[u32]> = pieces.iter().map(|piece| &piece[..3]).collect();
        mirrored += usize::from(stretches.len() < pieces.len());
        several += usize::from(ROOM < pieces.len());
        misled += usize::from(ROOM < pieces.len() && misleads);
    }
    println!(
        "windows: {empty} tables without a row, {repeated} with a piece twice, {mirrored} with a stretch in two \
         directions, {several} of several windows, {misled} of them with a sample that misleads"
    );
    let enough = 100 < empty && 1_000 < repeated && 1_000 < mirrored && 300 < several && 60 < misled;
    assert!(tables < 4_000 || enough, "each kind of table comes up");
    println!("windows: {tables} tables, 0 differences");
}
