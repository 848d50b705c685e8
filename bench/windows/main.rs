// The count of distinct pieces in windows, which the summary turns to where its draws deal the rows badly, beside copies
// of the pieces that are sorted: microseconds of processor time, the smallest of some rounds, and their ratios.
#[path = "../../compare/windows/door.rs"]
mod door;

use std::hint::black_box;

extern "C" {
    // The processor time that this process has taken, in microseconds (on Linux).
    fn clock() -> i64;
}

const ROUNDS: usize = 5;

fn scattered(k: u32) -> u32 {
    k.wrapping_mul(0x9E37_79B1).rotate_left(15).wrapping_mul(0x85EB_CA6B)
}

fn sorted_count(table: &[u32]) -> usize {
    let mut pieces: Vec<[u32; 4]> = table.chunks_exact(5).map(|row| [row[1], row[2], row[3], row[4]]).collect();
    pieces.sort_unstable();
    pieces.dedup();
    pieces.len()
}

// The smallest time of some rounds of at least 100,000 rows, in microseconds for each call.
fn time(rows: u32, mut run: impl FnMut() -> usize) -> f64 {
    let calls = 100_000 / rows + 1;
    let round = |_| {
        let start = unsafe { clock() };
        (0..calls).for_each(|_| {
            black_box(run());
        });
        (unsafe { clock() } - start) as f64 / f64::from(calls)
    };
    (0..ROUNDS).map(round).fold(f64::MAX, f64::min)
}

fn main() {
    println!("{:<20} {:>9} {:>12} {:>12} {:>6}", "in windows", "rows", "Rattle us", "Rust us", "ratio");
    let orders: [(&str, fn(u32) -> u32); 3] = [("rising", |k| k), ("falling", |k| !k), ("scattered", scattered)];
    for rows in [3_000, 100_000, 1_000_000] {
        for (name, order) in orders {
            let table: Vec<u32> = (0..rows).flat_map(|k| [1, order(k), order(k), 9, 0]).collect();
            assert_eq!(door::count(&table), sorted_count(&table), "{name}");
            let windows = time(rows, || door::count(black_box(&table)));
            let sorted = time(rows, || sorted_count(black_box(&table)));
            println!("{name:<20} {rows:>9} {windows:>12.1} {sorted:>12.1} {:>6.2}", windows / sorted);
        }
    }
    println!("Rattle: the last resort of the summary, called by itself. Rust: copies of the pieces, sorted.");
}
