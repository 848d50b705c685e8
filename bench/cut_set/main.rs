// What the closure does with the store, beside BTreeSet and a sorted Vec: a batch of numbers is added, those of it that
// are new are looked through in rising order, and count as known from then on. Nanoseconds of processor time for each
// number, and the ratios of one run. The store has a place for each number and no more. The three take the same
// numbers, one after the other; the smallest time of some rounds counts. The sorted Vec is left out where it would take
// minutes.
#[path = "../../compare/cut_set/doors.rs"]
#[allow(dead_code)]
mod doors;

use doors::CutSet;
use std::collections::BTreeSet;
use std::hint::black_box;

extern "C" {
    // The processor time that this process has taken, in microseconds (on Linux).
    fn clock() -> i64;
}

struct Random(u64);

impl Random {
    fn next(&mut self) -> u32 {
        self.0 ^= self.0 << 13;
        self.0 ^= self.0 >> 7;
        self.0 ^= self.0 << 17;
        (self.0 >> 20) as u32
    }
}

// Numbers in five orders, and the sizes of the batches that each is tried with.
fn orders(n: usize) -> [(&'static str, Vec<u32>, &'static [usize]); 5] {
    let mut random = Random(88172645463325252);
    let step = 900_000_000 / n as u32;
    let rising: Vec<u32> = (0..n as u32).map(|i| i * step).collect();
    let falling = rising.iter().rev().copied().collect();
    let scattered = (0..n).map(|_| random.next() % 1_000_000_000).collect();
    let ends = (0..n as u32).map(|i| if i % 2 == 0 { i / 2 * step } else { 900_000_000 - i / 2 * step }).collect();
    let repeated = (0..n).map(|_| random.next() % (n as u32 / 10) * 9).collect();
    [
        ("random", scattered, &[1, 16, 256, 4096]),
        ("repeated", repeated, &[1, 16, 256, 4096]),
        ("rising", rising, &[256]),
        ("falling", falling, &[256]),
        ("zigzag", ends, &[256]),
    ]
}

// The smallest time of some rounds of at least 20,000 numbers, in nanoseconds for each number.
fn time(n: usize, rounds: usize, mut run: impl FnMut() -> u64) -> f64 {
    let times = 20_000 / n + 1;
    let mut least = f64::MAX;
    for _ in 0..rounds {
        let start = unsafe { clock() };
        for _ in 0..times {
            black_box(run());
        }
        least = least.min((unsafe { clock() } - start) as f64 * 1000.0 / (times * n) as f64);
    }
    least
}

// What the three answer: a sum over the new numbers of each batch in rising order.
fn seen(found: &[u32]) -> u64 {
    found.iter().fold(found.len() as u64, |sum, &x| sum.wrapping_mul(31).wrapping_add(x as u64))
}

fn with_cut_set(numbers: &[u32], batch: usize) -> u64 {
    let mut set = CutSet::new(vec![0; numbers.len()], 0, numbers.len());
    let mut sum = 0_u64;
    for added in numbers.chunks(batch) {
        for &x in added {
            assert!(set.add(x));
        }
        set.gather();
        sum = sum.wrapping_add(seen(set.found_from(0)));
        set.finish();
    }
    sum
}

fn with_tree(numbers: &[u32], batch: usize) -> u64 {
    let mut set = BTreeSet::new();
    let mut found = Vec::new();
    let mut sum = 0_u64;
    for added in numbers.chunks(batch) {
        found.clear();
        found.extend(added.iter().copied().filter(|&x| set.insert(x)));
        found.sort_unstable();
        sum = sum.wrapping_add(seen(&found));
    }
    sum
}

// The new numbers go to their places from the largest one on, and what stands above moves up together.
fn with_sorted(numbers: &[u32], batch: usize) -> u64 {
    let mut set: Vec<u32> = Vec::new();
    let mut found = Vec::new();
    let mut sum = 0_u64;
    for added in numbers.chunks(batch) {
        found.clear();
        found.extend(added.iter().copied().filter(|x| set.binary_search(x).is_err()));
        found.sort_unstable();
        found.dedup();
        sum = sum.wrapping_add(seen(&found));
        let mut end = set.len();
        set.resize(end + found.len(), 0);
        for (k, &x) in found.iter().enumerate().rev() {
            let at = set[..end].partition_point(|&y| y < x);
            set.copy_within(at..end, at + k + 1);
            set[at + k] = x;
            end = at;
        }
    }
    sum
}

fn main() {
    println!("  numbers order    batch  cut_set BTreeSet      Vec    /BTree     /Vec");
    for (n, rounds) in [(1_000, 20), (100_000, 5), (1_000_000, 2)] {
        for (name, numbers, batches) in orders(n) {
            for &batch in batches.iter().filter(|&&batch| batch < n) {
                let answer = with_tree(&numbers, batch);
                assert_eq!(answer, with_cut_set(&numbers, batch));
                let ours = time(n, rounds, || with_cut_set(&numbers, batch));
                let tree = time(n, rounds, || with_tree(&numbers, batch));
                print!("{n:>9} {name:<8} {batch:>5} {ours:>8.0} {tree:>8.0}");
                if n < 1_000_000 || batch > 16 {
                    assert_eq!(answer, with_sorted(&numbers, batch));
                    let sorted = time(n, rounds, || with_sorted(&numbers, batch));
                    println!(" {sorted:>8.0}  {:>8.2} {:>8.2}", ours / tree, ours / sorted);
                } else {
                    println!(" {:>8}  {:>8.2} {:>8}", "-", ours / tree, "-");
                }
            }
        }
    }
}
