//! The slow program and marks: the lines worked out for 02, #106, the order of refusals, what is spanned, and of what
//! kinds scripts with marks are.

use compare::draft::Draft;
use compare::marks;
use compare::slow::carrying::{carry, Side};
use compare::slow::chaining::{chain, Buffers};
use compare::slow::refusal::Refusal;
use compare::slow::script::{read, Mark, Script};
use compare::slow::table::refine;

const RUBBISH: u32 = 0xDEAD_BEEF;

fn of_ten() -> Draft {
    Draft::lengths(10, 10)
}

fn run_of_01() -> Draft {
    of_ten().direct(0, 0, 6).reversed(2, 3, 5)
}

fn many_marks(count: usize) -> Draft {
    (0..count).fold(of_ten(), |draft, _| draft.mark(1, 10))
}

fn assert_refused(bytes: &[u8], number: u32, place: usize) {
    let refusal = read(bytes).expect_err("a refusal");
    assert_eq!((refusal.number(), refusal.place), (number, place));
}

fn marks_of(draft: Draft) -> Vec<Mark> {
    read(&draft.end()).expect("a script").marks
}

fn mark(side: Side, position: u64) -> Mark {
    Mark { side, position }
}

/// The answer, the table and the work buffer, which held rubbish before.
fn refined(
    draft: Draft,
    table: usize,
    work: usize,
) -> (Result<usize, Refusal>, Vec<u32>, Vec<u32>) {
    let mut table = vec![RUBBISH; table];
    let mut work = vec![RUBBISH; work];
    let answer = refine(&draft.end(), &mut table, &mut work);
    (answer, table, work)
}

/// The rows that refining with much room gives.
fn rows(draft: Draft) -> Vec<[u32; 5]> {
    let (answer, table, _) = refined(draft, 1_000, 800);
    let rows = table.as_chunks().0;
    rows[..answer.expect("rows")].to_vec()
}

#[test]
fn the_bytes_of_a_mark() {
    let bytes = [
        0x4C, 10, 0, 0, 0, 0, 0, 0, 16, // lengths 10 268435456
        0x4D, 0, 7, 0, 0, 0, // mark A 7
        0x4D, 1, 4, 3, 2, 1, // mark B 16909060
        0x45,
    ];
    let script = Script {
        p: 10,
        q: 0x1000_0000,
        matches: vec![],
        marks: vec![mark(Side::A, 7), mark(Side::B, 0x0102_0304)],
    };
    assert_eq!(read(&bytes), Ok(script));
}

// ---- the lines of #106

#[test]
fn the_run_and_a_mark_on_a() {
    let marked = rows(run_of_01().mark(0, 1));
    let unmarked = rows(run_of_01());
    assert_eq!((marked.len(), unmarked.len()), (9, 8));
    assert_eq!(marked[..2], [[1, 0, 0, 1, 0], [1, 1, 1, 1, 0]]);
    assert_eq!(marked[2..], unmarked[1..]);
}

#[test]
fn the_run_and_a_mark_that_no_match_spans() {
    assert_eq!(rows(run_of_01().mark(0, 9)), rows(run_of_01()));
}

#[test]
fn marks_that_no_match_spans_take_no_place() {
    let script = || of_ten().direct(0, 0, 1).mark(0, 5).mark(0, 6).mark(1, 7);
    let (answer, table, work) = refined(script(), 5, 4);
    assert_eq!(answer, Ok(1));
    assert_eq!((table, work), (vec![1, 0, 0, 1, 0], vec![0; 4]));
    let many = (2..=10).fold(script(), |draft, position| draft.mark(1, position));
    assert_eq!(refined(many, 5, 4).0, Ok(1));
}

#[test]
fn a_mark_makes_one_piece_too_many() {
    let script = || of_ten().direct(0, 0, 4).mark(0, 2);
    assert_eq!(rows(script()), [[1, 0, 0, 2, 0], [1, 2, 2, 2, 0]]);
    let (answer, table, work) = refined(script(), 9, 4);
    let refusal = answer.expect_err("a refusal");
    assert_eq!((refusal.number(), refusal.place), (12, 0));
    assert_eq!((table, work), (vec![RUBBISH; 9], vec![0; 4]));
}

#[test]
fn no_such_side_and_beyond_a_sequence() {
    assert_refused(&of_ten().mark(2, 0).end(), 20, 9);
    assert_refused(&of_ten().mark(0, 11).end(), 21, 9);
    assert_eq!(marks_of(of_ten().mark(0, 10)), [mark(Side::A, 10)]);
    let unequal = || Draft::lengths(10, 20);
    assert_eq!(marks_of(unequal().mark(1, 20)), [mark(Side::B, 20)]);
    assert_refused(&unequal().mark(1, 21).end(), 21, 9);
    assert_refused(&unequal().mark(0, 20).end(), 21, 9);
    assert_refused(&unequal().mark(1, u32::MAX).end(), 21, 9);
    for side in 2..=u8::MAX {
        assert_refused(&unequal().mark(side, 0).end(), 20, 9);
    }
}

#[test]
fn the_most_marks() {
    assert_eq!(marks_of(many_marks(512)).len(), 512);
    assert_refused(&many_marks(512).command(0x4D, &[]).without_end(), 19, 3_081);
    assert_refused(&many_marks(513).end(), 19, 3_081);
}

// ---- the order at a mark: 19, 3, 20, 21

#[test]
fn at_a_mark_19_before_3_before_20_before_21() {
    let whole = many_marks(512).mark(2, 11).without_end();
    for length in 3_082..=whole.len() {
        assert_refused(&whole[..length], 19, 3_081);
    }
    let whole = of_ten().direct(0, 0, 10).mark(2, 11).without_end();
    for length in 23..whole.len() {
        assert_refused(&whole[..length], 3, 22);
    }
    assert_refused(&whole, 20, 22);
    assert_refused(&of_ten().direct(0, 0, 10).mark(1, 11).without_end(), 21, 22);
}

#[test]
fn the_first_fault_counts() {
    assert_refused(&of_ten().mark(0, 11).direct(0, 0, 0).end(), 21, 9);
    assert_refused(&of_ten().direct(0, 0, 0).mark(0, 11).end(), 7, 9);
    assert_refused(&of_ten().mark(0, 1).bytes(b"X").end(), 2, 15);
    assert_refused(&of_ten().mark(0, 1).without_end(), 3, 15);
    assert_refused(&of_ten().mark(0, 1).command(0x4C, &[1, 1]).end(), 4, 15);
    let behind_the_end = [of_ten().mark(0, 1).end(), vec![0x4D]].concat();
    assert_refused(&behind_the_end, 10, 16);
}

#[test]
fn a_mark_is_no_first_command() {
    assert_refused(&[0x4D, 0, 1, 0, 0, 0, 0x45], 1, 0);
}

#[test]
fn marks_and_matches_are_counted_apart() {
    let most = (0..2_048).fold(many_marks(512), |draft, _| draft.direct(0, 0, 10));
    assert_eq!(most.clone().end().len(), 29_706);
    let script = read(&most.clone().end()).expect("a script");
    assert_eq!((script.matches.len(), script.marks.len()), (2_048, 512));
    assert_refused(&most.clone().direct(0, 0, 10).end(), 6, 29_705);
    assert_refused(&most.mark(0, 0).end(), 19, 29_705);
}

// ---- marks have no match numbers

#[test]
fn the_numbers_of_the_matches_stay() {
    let marked = of_ten()
        .mark(0, 0)
        .direct(0, 0, 6)
        .mark(1, 3)
        .mark(1, 3)
        .reversed(2, 3, 5)
        .mark(0, 9);
    let plain = run_of_01().end();
    let script = read(&marked.clone().end()).expect("a script");
    let marks = [(Side::A, 0), (Side::B, 3), (Side::B, 3), (Side::A, 9)];
    assert_eq!(script.marks, marks.map(|(side, at)| mark(side, at)));
    for number in [0, 1, 2, 3, 4] {
        let of_plain = read(&plain).expect("a script").one_match(number);
        assert_eq!(script.one_match(number), of_plain);
        for side in [Side::A, Side::B] {
            for position in 0..=10 {
                let of_plain = carry(&plain, number, side, position);
                assert_eq!(
                    carry(&marked.clone().end(), number, side, position),
                    of_plain
                );
            }
        }
    }
    assert_eq!(rows(marked), rows(run_of_01()));
}

// ---- spanned on its own side, both ends included

#[test]
fn a_mark_goes_by_its_own_side() {
    let apart = || Draft::lengths(100, 100).direct(10, 50, 10);
    assert_eq!(rows(apart().mark(0, 55)).len(), 1);
    assert_eq!(rows(apart().mark(1, 15)).len(), 1);
    let two = |inside| {
        [
            [1, 10, 50, inside, 0],
            [1, 10 + inside, 50 + inside, 10 - inside, 0],
        ]
    };
    assert_eq!(rows(apart().mark(0, 13)), two(3));
    assert_eq!(rows(apart().mark(1, 57)), two(7));
    for end in [
        (0, 10),
        (0, 20),
        (1, 50),
        (1, 60),
        (0, 9),
        (0, 21),
        (1, 49),
        (1, 61),
    ] {
        assert_eq!(rows(apart().mark(end.0, end.1)).len(), 1);
    }
}

/// A 13, over the first match B 57, over the second A 83, over the third B 7. The ends of the third at A 80 and 85 are
/// cuts of all three anyway.
#[test]
fn a_mark_is_carried_on() {
    let chained = || {
        Draft::lengths(100, 100)
            .reversed(10, 50, 10)
            .direct(76, 50, 10)
            .direct(80, 4, 5)
    };
    let wanted = [
        [1, 10, 59, 1, 1],
        [1, 11, 57, 2, 1],
        [1, 13, 54, 3, 1],
        [1, 16, 50, 4, 1],
        [2, 76, 50, 4, 0],
        [2, 80, 54, 3, 0],
        [2, 83, 57, 2, 0],
        [2, 85, 59, 1, 0],
        [3, 80, 4, 3, 0],
        [3, 83, 7, 2, 0],
    ];
    for (side, position) in [(0, 13), (1, 57), (0, 83), (1, 7)] {
        assert_eq!(rows(chained().mark(side, position)), wanted);
    }
    assert_eq!(rows(chained()).len(), 7);
}

#[test]
fn equal_marks_and_marks_at_cuts_change_nothing_more() {
    let once = rows(run_of_01().mark(0, 1));
    assert_eq!(rows(run_of_01().mark(0, 1).mark(0, 1)), once);
    assert_eq!(
        rows(
            of_ten()
                .mark(0, 1)
                .direct(0, 0, 6)
                .reversed(2, 3, 5)
                .mark(1, 1)
        ),
        once
    );
    let unmarked = rows(run_of_01());
    for cut in [
        (0, 0),
        (0, 2),
        (0, 3),
        (0, 4),
        (0, 6),
        (0, 7),
        (1, 3),
        (1, 8),
    ] {
        assert_eq!(rows(run_of_01().mark(cut.0, cut.1)), unmarked);
    }
}

#[test]
fn marks_without_a_match() {
    let (answer, _, work) = refined(of_ten().mark(0, 0).mark(1, 10), 0, 3);
    assert_eq!((answer, work), (Ok(0), vec![0; 3]));
}

/// With a mark at A 5 the first match is two rows that follow each other.
#[test]
fn a_chain_of_marked_pieces() {
    let script = of_ten().direct(0, 0, 6).mark(0, 5).end();
    let (mut table, mut work) = ([0; 10], [0; 8]);
    let (mut in_chain, mut scores) = ([0; 2], [0; 2]);
    let buffers = Buffers {
        table: &mut table,
        work: &mut work,
        chain: &mut in_chain,
        scores: &mut scores,
    };
    let chained = chain(&script, 1_000, buffers).expect("room");
    assert_eq!((chained.score, chained.chain), (6, vec![1, 2]));
}

// ---- kinds

#[test]
fn kinds_of_marks() {
    let kinds = |draft: Draft| marks::of(&read(&draft.end()).expect("a script"));
    let apart = || Draft::lengths(100, 100).direct(10, 50, 10);
    assert!(kinds(apart()).is_empty());
    assert_eq!(kinds(apart().mark(0, 13)), [marks::MAKES_A_CUT_ON_A]);
    assert_eq!(kinds(apart().mark(1, 53)), [marks::MAKES_A_CUT_ON_B]);
    assert_eq!(kinds(apart().mark(1, 60)), [marks::AT_AN_END]);
    assert_eq!(kinds(apart().mark(1, 61)), [marks::UNSPANNED]);
    assert_eq!(kinds(apart().mark(0, 50)), [marks::UNSPANNED]);
    assert_eq!(
        kinds(apart().mark(0, 51)),
        [marks::UNSPANNED, marks::ASTRAY_ON_A]
    );
    assert_eq!(
        kinds(apart().mark(1, 19)),
        [marks::UNSPANNED, marks::ASTRAY_ON_B]
    );
    let twice = apart().mark(0, 1).mark(0, 2).mark(0, 1);
    assert_eq!(kinds(twice), [marks::REPEATED, marks::UNSPANNED]);
    let many = (1..=5).fold(apart(), |draft, position| draft.mark(0, position));
    assert_eq!(kinds(many), [marks::UNSPANNED, marks::MANY_UNSPANNED]);
    assert_eq!(kinds(run_of_01().mark(0, 3)), [marks::A_CUT_ANYWAY]);
    let carried_on = apart().direct(30, 50, 10).mark(0, 13);
    assert_eq!(
        kinds(carried_on),
        [marks::MAKES_A_CUT_ON_A, marks::CARRIED_ON]
    );
    let near = apart().direct(30, 50, 10).mark(0, 13).mark(0, 33);
    assert_eq!(kinds(near), [marks::MAKES_A_CUT_ON_A]);
    assert_eq!(kinds(of_ten().mark(1, 3)), [marks::UNSPANNED]);
}

#[test]
fn kinds_of_orders() {
    let order = |draft: Draft| {
        let bytes = draft.end();
        (marks::order(&bytes), marks::matches_come_first(&bytes))
    };
    let matched = |draft: Draft| draft.direct(0, 0, 1);
    let marked = |draft: Draft| draft.mark(0, 0x45);
    let start = || Draft::lengths(100, 100);
    assert_eq!(order(start()), (vec![], true));
    assert_eq!(order(matched(start())), (vec![], true));
    assert_eq!(order(marked(start())), (vec![marks::NO_MATCH], true));
    assert_eq!(order(marked(matched(start()))), (vec![marks::BEHIND], true));
    assert_eq!(order(matched(marked(start()))), (vec![marks::FIRST], false));
    let between = matched(marked(matched(start())));
    assert_eq!(order(between.clone()), (vec![marks::BETWEEN], false));
    assert_eq!(order(marked(between)), (vec![marks::BETWEEN], false));
}

#[test]
fn matches_put_first() {
    let mixed = of_ten()
        .mark(0, 1)
        .direct(0, 0, 6)
        .mark(1, 2)
        .reversed(2, 3, 5)
        .mark(0, 1);
    let first = run_of_01().mark(0, 1).mark(1, 2).mark(0, 1).end();
    assert_eq!(marks::with_matches_first(&mixed.end()), first);
    assert_eq!(marks::with_matches_first(&first), first);
}

#[test]
fn kinds_of_faults() {
    let fault = |bytes: &[u8]| marks::fault(bytes, read(bytes).expect_err("a refusal"));
    let full = many_marks(512);
    let fault_of = |draft: Draft| fault(&draft.end());
    assert_eq!(
        fault(&of_ten().bytes(&[0x4D, 0, 1]).without_end()),
        Some(marks::CUT_SHORT)
    );
    assert_eq!(fault_of(of_ten().mark(2, 10)), None);
    assert_eq!(
        fault_of(of_ten().mark(2, 11)),
        Some(marks::NO_SIDE_AND_BEYOND)
    );
    assert_eq!(fault_of(of_ten().mark(1, 11)), None);
    assert_eq!(fault_of(full.clone().mark(1, 10)), None);
    assert_eq!(
        fault_of(full.clone().mark(2, 11)),
        Some(marks::TOO_MANY_AND_NO_SIDE)
    );
    assert_eq!(
        fault_of(full.clone().mark(1, 11)),
        Some(marks::TOO_MANY_AND_BEYOND)
    );
    let cut_short = full.bytes(&[0x4D, 0, 0, 0, 0]).without_end();
    assert_eq!(fault(&cut_short), Some(marks::TOO_MANY_AND_CUT_SHORT));
    assert_eq!(fault(&[0x4D, 0]), None);
}
