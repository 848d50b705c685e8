// A differential run: random scripts of 1 to 16 tracks with marks, whose cuts the engine finds through its door, and a
// slow program from the definition. The answer is compared, and after all cuts were found each set of each side and
// track, with the places that it has. The seed is fixed. The last line is 'tracks: N calls, 0 differences', and the
// status 0, only if all were the same and each case that the line before counts came up often; the first difference
// ends the run. An argument sets the count of scripts.
#[path = "door.rs"]
mod door;
#[path = "draw.rs"]
mod draw;
#[path = "field.rs"]
mod field;
#[path = "groups.rs"]
mod groups;
#[path = "marks.rs"]
mod marks;
#[path = "met.rs"]
mod met;
#[allow(dead_code)]
#[path = "../src/random.rs"]
mod random;
#[path = "slow.rs"]
mod slow;
#[path = "trial.rs"]
mod trial;

use draw::Script;
use met::Met;
use random::Random;
use trial::{Call, Wanted};

// The count of scripts that the gate tries.
const SCRIPTS: usize = 30_000;

// The slow program gives up with so many cuts; it is then sure of their rows alone.
const MOST_CUTS: usize = 30_000;

// The capacities that a script is tried with.
fn capacities(random: &mut Random, wanted: &Wanted) -> Vec<usize> {
    let rows = wanted.rows;
    let less = random.count_between(0, rows.saturating_sub(1));
    if !wanted.whole {
        return vec![0, less, rows - 1];
    }
    let more = rows + random.count_between(1, 2 + rows);
    let mut capacities = vec![0, less, rows, rows, more];
    capacities.extend(rows.checked_sub(1));
    capacities
}

fn compare(random: &mut Random, number: usize, met: &mut Met) {
    let script = Script::any(random, number);
    let closure = slow::close(&script.matches, &script.marks, MOST_CUTS);
    let wanted = Wanted::of(&script, &closure);
    met.see_script(&script, &closure);
    let columns = trial::columns(&script);
    for capacity in capacities(random, &wanted) {
        let call = Call::any(random, &script, capacity);
        match trial::run(random, &columns, &call, &wanted) {
            Ok(outcome) => met.see_call(&script, &closure, &wanted, &call, &outcome),
            Err(what) => {
                eprintln!("{script:?}\n{call:?}\ntracks: script {number}: {what}");
                std::process::exit(1);
            }
        }
    }
}

fn main() {
    let scripts: usize = std::env::args()
        .nth(1)
        .map_or(SCRIPTS, |n| n.parse().expect("a count of scripts"));
    let mut random = Random::from_seed(2002);
    let mut met = Met::default();
    for number in 0..scripts {
        compare(&mut random, number, &mut met);
    }
    let often = met.print();
    assert!(scripts < SCRIPTS || often, "each case comes up often");
    println!("tracks: {} calls, 0 differences", met.calls);
}
