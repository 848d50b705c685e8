//! The proved carrying of lists beside plain Rust and beside the single call for each position.

mod cases;
mod plain;

use crate::timing::Timing;
use cases::{Call, Case};
use compare::door::{self, Carrying};
use compare::slow::carrying::Side;
use compare::slow::refusal::{Refusal, Word};
use compare::slow::script;
use std::hint::black_box;

pub fn run() {
    for (title, cases) in [
        ("carrying lists", cases::carried()),
        ("refused lists", cases::refused()),
    ] {
        println!(
            "\n{:<43} {:>9} {:>10} {:>10} {:>6} {:>10} {:>10} {:>6}",
            title, "positions", "from A ns", "Rust ns", "ratio", "from B ns", "Rust ns", "ratio"
        );
        for case in cases {
            check(&case);
            report(&case);
        }
    }
    println!("from A, from B: notchergrey_carry_all_from_a and notchergrey_carry_all_from_b.");
    println!("Rust: plain Rust that reads once, judges all positions, then fills the lent buffer.");
    println!(
        "\n{:<43} {:>9} {:>10} {:>10} {:>6} {:>10} {:>6} {:>11} {:>6}",
        "a list in other ways",
        "positions",
        "from A us",
        "Rust us",
        "ratio",
        "blocks us",
        "ratio",
        "single us",
        "ratio"
    );
    for case in cases::other_ways() {
        check(&case);
        check_each(&case);
        report_other_ways(&case);
    }
    println!("from A, Rust: as before. blocks: plain Rust that judges 256 positions at a time.");
    println!("single: notchergrey_carry_from_a for each position.");
}

fn report(case: &Case) {
    let proved = |side| {
        let mut carried = vec![0; case.room];
        let mut place = 0;
        move |call: &Call| _ = black_box(carry_all(call, side, &mut carried, &mut place))
    };
    let plain = |side| {
        let mut carried = vec![0; case.room];
        let plain = plain::carry_all;
        move |call: &Call| _ = black_box(carry_plainly(plain, call, side, &mut carried))
    };
    let timing = Timing {
        calls: case.calls,
        inputs: &case.inputs,
    };
    let [from_a, plain_from_a, from_b, plain_from_b] = timing.medians([
        &mut proved(Side::A),
        &mut plain(Side::A),
        &mut proved(Side::B),
        &mut plain(Side::B),
    ]);
    println!(
        "{:<43} {:>9} {:>10.1} {:>10.1} {:>6.2} {:>10.1} {:>10.1} {:>6.2}",
        case.name,
        case.positions,
        from_a,
        plain_from_a,
        from_a / plain_from_a,
        from_b,
        plain_from_b,
        from_b / plain_from_b
    );
}

fn report_other_ways(case: &Case) {
    let timing = Timing {
        calls: case.calls,
        inputs: &case.inputs,
    };
    let mut carried = [(); 4].map(|_| vec![0; case.room]);
    let [of_proved, of_plain, of_blocks, of_single] = &mut carried;
    let mut place = 0;
    let [proved, plain, blocks, single] = timing.medians([
        &mut |call| _ = black_box(carry_all(call, Side::A, of_proved, &mut place)),
        &mut |call| _ = black_box(carry_plainly(plain::carry_all, call, Side::A, of_plain)),
        &mut |call| {
            let blocks = plain::carry_all_in_blocks;
            _ = black_box(carry_plainly(blocks, call, Side::A, of_blocks));
        },
        &mut |call| carry_each(call, Side::A, black_box(of_single)),
    ]);
    println!(
        "{:<43} {:>9} {:>10.2} {:>10.2} {:>6.2} {:>10.2} {:>6.2} {:>11.2} {:>6.3}",
        case.name,
        case.positions,
        proved / 1e3,
        plain / 1e3,
        proved / plain,
        blocks / 1e3,
        proved / blocks,
        single / 1e3,
        proved / single
    );
}

fn carry_all(call: &Call, side: Side, carried: &mut [u32], place: &mut usize) -> u32 {
    let positions = call.positions(side);
    door::carry_all(&call.script, call.number, side, positions, carried, place)
}

/// A plain program for lists.
type Plain = fn(&[u8], u32, Side, &[u32], &mut [u32]) -> Result<(), Refusal>;

fn carry_plainly(
    plain: Plain,
    call: &Call,
    side: Side,
    carried: &mut [u32],
) -> Result<(), Refusal> {
    let positions = call.positions(side);
    plain(&call.script, call.number, side, positions, carried)
}

/// The single call for each position, none of which is refused.
fn carry_each(call: &Call, side: Side, carried: &mut [u32]) {
    let mut lent = Carrying {
        place: 0,
        carried: 0,
    };
    for (carried, &position) in carried.iter_mut().zip(call.positions(side)) {
        let answer = door::carry(&call.script, call.number, side, position, &mut lent);
        assert_eq!(answer, 0);
        *carried = lent.carried;
    }
}

const SIDES: [Side; 2] = [Side::A, Side::B];

/// What stands in a buffer, or in a place, before the call.
const RUBBISH: u32 = 7;

/// Programs that disagree are not worth timing. What is lent has rubbish in it, which a refusal keeps.
fn check(case: &Case) {
    let name = &case.name;
    for call in &case.inputs {
        for side in SIDES {
            let wanted = carried_slowly(call, side, case.room);
            let refusal = wanted.as_ref().err();
            let wanted_place = refusal.map_or(RUBBISH as usize, |refusal| refusal.place);
            let rubbish = vec![RUBBISH; case.room];
            let left = wanted.as_ref().unwrap_or(&rubbish);
            let mut carried = rubbish.clone();
            let mut place = RUBBISH as usize;
            let answer = carry_all(call, side, &mut carried, &mut place);
            assert_eq!(answer, Refusal::number_in(&wanted), "{name}");
            assert_eq!(place, wanted_place, "{name}");
            assert!(carried == *left, "{name}: not what is carried");
            for plain in [plain::carry_all, plain::carry_all_in_blocks] {
                let mut carried = rubbish.clone();
                let answer = carry_plainly(plain, call, side, &mut carried);
                assert_eq!(answer.err().as_ref(), refusal, "{name}");
                assert!(carried == *left, "{name}: not what plain Rust carries");
            }
        }
    }
}

/// The single calls' answers, the same as the list's.
fn check_each(case: &Case) {
    for call in &case.inputs {
        for side in SIDES {
            let mut carried = vec![RUBBISH; case.room];
            carry_each(call, side, &mut carried);
            let wanted = carried_slowly(call, side, case.room).expect("no refusal");
            assert!(carried == wanted, "{}: not the list", case.name);
        }
    }
}

/// Each position as the slow program carries it.
fn carried_slowly(call: &Call, side: Side, room: usize) -> Result<Vec<u32>, Refusal> {
    let m = script::read(&call.script)?.one_match(call.number)?;
    let positions = call.positions(side);
    if positions.len() != room {
        return Err(Refusal::of_the_call(Word::CountsDiffer));
    }
    let carried = positions.iter().map(|&position| {
        let position = u64::from(position);
        let spanned = m.span(side).contains(&position);
        spanned.then(|| m.carry(side, position) as u32)
    });
    let carried: Option<Vec<u32>> = carried.collect();
    carried.ok_or(Refusal::of_the_call(Word::OffTheMatch))
}
