// A differential run: random calls on the set through its doors, and the same on three BTreeSets, of the finished
// members, the newly found ones, and what was added since the set was gathered. Every answer, every run that is handed
// back, the count of unused places, all numbers outside the set's part, and the places of a set that has no room are
// compared. The seed is fixed. The last line is 'cut_set: N calls, 0 differences', and the status 0, only if all were
// the same and each case that the line before counts came up often; the first difference ends the run. An argument sets
// the count of sets tried.
#[path = "doors.rs"]
mod doors;

use doors::CutSet;
use std::collections::BTreeSet;
use std::mem::take;

// The count of sets that the gate tries.
const SETS: usize = 3_000;

struct Random(u64);

impl Random {
    fn below(&mut self, n: u64) -> u64 {
        self.0 ^= self.0 << 13;
        self.0 ^= self.0 >> 7;
        self.0 ^= self.0 << 17;
        (self.0 >> 11) % n
    }
}

// How the numbers of one set are drawn.
struct Draw {
    span: u64,
    kind: u64,
    count: u64,
}

impl Draw {
    fn next(&mut self, random: &mut Random) -> u32 {
        self.count += 1;
        let k = self.count;
        (match self.kind {
            0 => random.below(self.span),
            1 => k * 3 % self.span,
            2 => self.span - 1 - k * 3 % self.span,
            3 if k % 2 == 0 => k % self.span,
            3 => self.span - 1 - k % self.span,
            _ => u32::MAX as u64 - random.below(self.span),
        }) as u32
    }
}

// How many calls there were, and how often each case came up.
#[derive(Default)]
struct Met {
    calls: usize,
    tight: usize,
    filled: usize,
    refused: usize,
    repeated: usize,
    known: usize,
    many: usize,
    in_place: usize,
    lengthened: usize,
    joined: usize,
    noted: usize,
    given_way: usize,
    sifted: usize,
}

impl Met {
    // The count of each case, and how often it has to come up.
    fn cases(&self) -> [(usize, &'static str, usize); 12] {
        [
            (self.tight, "additions that had no room to be sorted", 10_000),
            (self.filled, "sets filled", 1_000),
            (self.refused, "refusals", 10_000),
            (self.repeated, "numbers added twice before they were gathered", 10_000),
            (self.known, "members found again", 10_000),
            (self.many, "finishes of more than 512", 1_000),
            (self.in_place, "of them with fewer unused places", 100),
            (self.lengthened, "middle runs of more than 16,384", 100),
            (self.joined, "joins of three runs", 200),
            (self.noted, "notes taken anew", 1_000),
            (self.given_way, "notes that gave way to a number", 500),
            (self.sifted, "numbers gathered beside notes", 10_000),
        ]
    }
}

// A set of at most `room` members, the numbers that its slice began with, `before` of which stand before its part, and
// what it has to hold.
struct Trial {
    number: usize,
    before: usize,
    room: usize,
    old: Vec<u32>,
    set: CutSet,
    finished: BTreeSet<u32>,
    found: BTreeSet<u32>,
    added: BTreeSet<u32>,
    met: Met,
}

impl Trial {
    fn new(random: &mut Random, number: usize, room: usize, met: Met) -> Trial {
        let before = random.below(4) as usize;
        let behind = random.below(4) as usize;
        let old: Vec<u32> = (0..before + room + behind).map(|_| random.below(1 << 32) as u32).collect();
        let set = CutSet::new(old.clone(), before, before + room);
        let [finished, found, added] = [BTreeSet::new(), BTreeSet::new(), BTreeSet::new()];
        Trial { number, before, room, old, set, finished, found, added, met }
    }

    fn differ(&self, what: &str) -> ! {
        eprintln!("cut_set: {what} differs in set {}, call {}", self.number, self.met.calls);
        std::process::exit(1);
    }

    fn members(&self) -> usize {
        self.finished.len() + self.found.len() + self.added.len()
    }

    fn known(&self, x: u32) -> bool {
        self.finished.contains(&x) || self.found.contains(&x)
    }

    // A number of the draw, or a member: mostly that where the set is full.
    fn draw(&self, random: &mut Random, draw: &mut Draw) -> u32 {
        let x = draw.next(random);
        if random.below(8) >= if self.members() == self.room { 7 } else { 2 } {
            return x;
        }
        let kind = [&self.finished, &self.found, &self.added][random.below(3) as usize];
        kind.range(x..).next().copied().unwrap_or(x)
    }

    // False: there is no room.
    fn add(&mut self, x: u32) -> bool {
        self.met.calls += 1;
        let repeated = self.added.contains(&x);
        let known = self.known(x);
        let tight = self.set.tight();
        self.met.tight += usize::from(tight);
        self.met.repeated += usize::from(repeated);
        self.met.known += usize::from(known);
        if !repeated && !known && self.members() == self.room {
            self.refuse(x);
            return false;
        }
        if tight {
            self.found.extend(take(&mut self.added));
        }
        let noted = self.set.noted();
        if !self.set.add(x) {
            self.differ("room");
        }
        self.met.given_way += usize::from(noted && !self.set.noted());
        if !repeated && !known {
            self.added.insert(x);
            self.met.filled += usize::from(self.members() == self.room);
        }
        true
    }

    // Adds x where there is no room for it, and goes on with the set as it was.
    fn refuse(&mut self, x: u32) {
        self.met.refused += 1;
        let copy = self.set.clone();
        if self.set.add(x) {
            self.differ("room");
        }
        let mut held = self.set.places()[self.before..self.before + self.room].to_vec();
        held.sort();
        let mut members: Vec<u32> = self.finished.iter().chain(&self.found).chain(&self.added).copied().collect();
        members.sort();
        if held != members {
            self.differ("what a full set holds");
        }
        self.set = copy;
    }

    fn gather(&mut self, from: u32) {
        self.met.calls += 3;
        self.met.sifted += if self.set.noted() { self.added.len() } else { 0 };
        self.set.gather();
        self.found.extend(take(&mut self.added));
        let part = self.set.found_from(from).iter().eq(self.found.range(from..));
        if !part || !self.set.found_from(0).iter().eq(&self.found) {
            self.differ("the newly found run");
        }
        self.see_room();
    }

    fn ask(&mut self, x: u32) {
        self.met.calls += 1;
        if self.set.member(x) != self.known(x) {
            self.differ("membership");
        }
    }

    fn finish(&mut self) {
        self.met.calls += 2;
        let [long, middle, short] = self.set.finished_runs();
        let many = self.found.len() > 512;
        self.met.many += usize::from(many);
        self.met.in_place += usize::from(many && middle + short > 0 && self.found.len() > self.set.unused());
        let noted = self.set.notes();
        self.set.finish();
        self.met.noted += usize::from(self.set.notes() > noted);
        self.met.lengthened += usize::from(self.set.finished_runs()[0] > long);
        self.finished.extend(take(&mut self.found));
        if !self.set.found_from(0).is_empty() {
            self.differ("what is newly found after finishing");
        }
        self.see_room();
    }

    fn join(&mut self) {
        self.met.calls += 1;
        self.met.joined += usize::from(self.set.finished_runs().iter().all(|&n| n > 0));
        self.finished.extend(take(&mut self.found));
        self.finished.extend(take(&mut self.added));
        if !self.set.join().iter().eq(&self.finished) {
            self.differ("the run of all");
        }
        self.see_room();
    }

    fn see_room(&self) {
        if self.set.unused() != self.room - self.members() {
            self.differ("the count of unused places");
        }
    }

    fn see_outside(&self) {
        let (places, end) = (self.set.places(), self.before + self.room);
        if places[..self.before] != self.old[..self.before] || places[end..] != self.old[end..] {
            self.differ("a number outside the part");
        }
    }
}

// Some `additions` to one set in batches, and other calls between them.
fn compare(random: &mut Random, number: usize, room: usize, additions: usize, met: Met) -> Met {
    let mut trial = Trial::new(random, number, room, met);
    let spans = [room as u64 * 3 / 4 + 1, room as u64 + 2, 4 * room as u64 + 4, 1 << 32];
    let mut draw = Draw { span: spans[random.below(4) as usize], kind: random.below(5), count: 0 };
    let batch = 1 + room / [500, 50, 5, 2][random.below(4) as usize];
    let rearrange = if room > 16_384 { 1000 } else { [8, 30, 200][random.below(3) as usize] };
    let mut done = 0;
    while done < additions {
        let count = 1 + random.below(2 * batch as u64) as usize;
        done += count;
        for _ in 0..count {
            let x = trial.draw(random, &mut draw);
            if !trial.add(x) {
                break;
            }
        }
        match random.below(rearrange) {
            0 => (),
            1 => trial.join(),
            next => {
                trial.gather(draw.next(random));
                for _ in 0..count / 2 {
                    let x = trial.draw(random, &mut draw);
                    trial.ask(x);
                }
                if next % 2 == 0 {
                    trial.finish();
                }
            }
        }
        trial.see_outside();
    }
    trial.join();
    trial.see_outside();
    trial.met
}

fn main() {
    let sets: usize = std::env::args().nth(1).map_or(SETS, |n| n.parse().expect("a count of sets"));
    let mut random = Random(0x9E37_79B9_7F4A_7C15);
    let mut met = Met::default();
    for number in 0..sets {
        let (room, additions) = match number % 16 {
            0..=7 => (random.below(9) as usize, 50),
            8..=11 => (random.below(700) as usize, 1000),
            12..=14 => (1000 + random.below(7000) as usize, 10_000),
            _ => (20_000 + random.below(20_000) as usize, 40_000),
        };
        met = compare(&mut random, number, room, additions, met);
    }
    let cases = met.cases();
    println!("cut_set: {}", cases.map(|(times, case, _)| format!("{times} {case}")).join(", "));
    assert!(sets < SETS || cases.iter().all(|(times, _, least)| times >= least), "each case comes up often");
    println!("cut_set: {} calls, 0 differences", met.calls);
}
