//! The slow program refines: the lines of 01 with their rows, the buffers, the order of refusals.

use compare::draft::Draft;
use compare::ends;
use compare::slow::refusal::{Refusal, Word};
use compare::slow::script::Match;
use compare::slow::table::{refine, summary};

const RUBBISH: u32 = 0xDEAD_BEEF;

/// Rows of the run of 01.
const RUN: [[u32; 5]; 8] = [
    [1, 0, 0, 2, 0],
    [1, 2, 2, 1, 0],
    [1, 3, 3, 1, 0],
    [1, 4, 4, 2, 0],
    [2, 2, 7, 1, 1],
    [2, 3, 6, 1, 1],
    [2, 4, 4, 2, 1],
    [2, 6, 3, 1, 1],
];

fn run_of_01() -> Vec<u8> {
    Draft::lengths(10, 10)
        .direct(0, 0, 6)
        .reversed(2, 3, 5)
        .end()
}

/// The answer, the table and the work buffer, which held rubbish before.
fn refined(
    script: &[u8],
    table: usize,
    work: usize,
) -> (Result<usize, Refusal>, Vec<u32>, Vec<u32>) {
    let mut table = vec![RUBBISH; table];
    let mut work = vec![RUBBISH; work];
    let answer = refine(script, &mut table, &mut work);
    (answer, table, work)
}

/// The rows that refining with much room gives.
fn rows(script: Draft) -> Vec<u32> {
    let (answer, mut table, _) = refined(&script.end(), 1_000, 800);
    table.truncate(5 * answer.expect("rows"));
    table
}

fn refused(word: Word, place: usize) -> Result<usize, Refusal> {
    Err(Refusal { word, place })
}

#[test]
fn no_bytes() {
    let (answer, table, work) = refined(&[], 5, 4);
    assert_eq!(answer, refused(Word::Headless, 0));
    assert_eq!((table, work), (vec![RUBBISH; 5], vec![RUBBISH; 4]));
}

#[test]
fn no_match_and_no_piece() {
    let script = Draft::lengths(1, 1).end();
    for (table, work) in [(0, 0), (0, 3), (4, 0), (5, 4), (9, 6)] {
        let (answer, table_after, work_after) = refined(&script, table, work);
        assert_eq!(answer, Ok(0));
        assert_eq!(table_after, vec![RUBBISH; table]);
        assert_eq!(work_after, vec![0; work]);
    }
}

#[test]
fn a_match_over_all() {
    let ten = Draft::lengths(10, 10).direct(0, 0, 10);
    assert_eq!(rows(ten), [1, 0, 0, 10, 0]);
}

#[test]
fn the_run_of_01() {
    assert_eq!(
        rows(Draft::lengths(10, 10).direct(0, 0, 6).reversed(2, 3, 5)),
        RUN.as_flattened()
    );
}

#[test]
fn forty_numbers_of_table_pass() {
    let (answer, table, work) = refined(&run_of_01(), 40, 32);
    assert_eq!(answer, Ok(8));
    assert_eq!(table, RUN.as_flattened());
    assert_eq!(work, [0; 32]);
}

#[test]
fn thirty_nine_numbers_of_table_are_too_few() {
    for work in [28, 29, 32, 100] {
        let (answer, table, work_after) = refined(&run_of_01(), 39, work);
        assert_eq!(answer, refused(Word::TooManyPieces, 0));
        assert_eq!(table, [RUBBISH; 39]);
        assert_eq!(work_after, vec![0; work]);
    }
}

#[test]
fn thirty_one_numbers_of_work_are_too_few() {
    let (answer, table, work) = refined(&run_of_01(), 40, 31);
    assert_eq!(answer, refused(Word::WorkTooShort, 0));
    assert_eq!((table, work), (vec![RUBBISH; 40], vec![RUBBISH; 31]));
}

#[test]
fn numbers_past_the_last_row_are_kept() {
    let (answer, table, work) = refined(&run_of_01(), 53, 77);
    assert_eq!(answer, Ok(8));
    assert_eq!(table[..40], *RUN.as_flattened());
    assert_eq!(table[40..], [RUBBISH; 13]);
    assert_eq!(work, [0; 77]);
}

#[test]
fn the_script_before_11_before_12() {
    let tail = [run_of_01(), vec![0]].concat();
    assert_eq!(refined(&tail, 39, 27).0, refused(Word::Tail, 36));
    assert_eq!(
        refined(&run_of_01(), 39, 27).0,
        refused(Word::WorkTooShort, 0)
    );
    assert_eq!(
        refined(&run_of_01(), 39, 28).0,
        refused(Word::TooManyPieces, 0)
    );
}

#[test]
fn without_a_row_of_capacity() {
    let one = Draft::lengths(1, 1).direct(0, 0, 1).end();
    for table in 0..5 {
        let (answer, _, work) = refined(&one, table, 2);
        assert_eq!(answer, refused(Word::TooManyPieces, 0));
        assert_eq!(work, [0; 2]);
    }
}

#[test]
fn the_same_match_twice() {
    let twice = Draft::lengths(4, 4).direct(0, 0, 4).direct(0, 0, 4);
    let table = rows(twice);
    assert_eq!(table, [1, 0, 0, 4, 0, 2, 0, 0, 4, 0]);
    assert_eq!((summary(&table).pieces, summary(&table).distinct), (2, 1));
}

#[test]
fn direct_and_reversed() {
    let both = Draft::lengths(4, 4).direct(0, 0, 4).reversed(0, 0, 4);
    let table = rows(both);
    assert_eq!(table, [1, 0, 0, 4, 0, 2, 0, 0, 4, 1]);
    assert_eq!((summary(&table).pieces, summary(&table).distinct), (2, 2));
}

#[test]
fn one_letter_apart() {
    let table = rows(Draft::lengths(5, 5).direct(0, 0, 4).direct(0, 1, 4));
    let first = (0..4).flat_map(|left| [1, left, left, 1, 0]);
    let second = (0..4).flat_map(|left| [2, left, left + 1, 1, 0]);
    assert_eq!(table, first.chain(second).collect::<Vec<u32>>());
}

#[test]
fn touching_matches() {
    let table = rows(Draft::lengths(8, 8).direct(0, 0, 4).direct(4, 4, 4));
    assert_eq!(table, [1, 0, 0, 4, 0, 2, 4, 4, 4, 0]);
}

/// A cut that only the fourth carrying finds: A 3, B 13, A 23, B 33, A 43.
#[test]
fn a_staircase() {
    let table = rows(
        Draft::lengths(60, 60)
            .direct(0, 10, 10)
            .direct(20, 10, 10)
            .direct(20, 30, 10)
            .direct(40, 30, 10)
            .direct(3, 50, 2),
    );
    let steps = [(0, 10), (20, 10), (20, 30), (40, 30)];
    let mut wanted = Vec::new();
    for (number, (left_a, left_b)) in (1..).zip(steps) {
        for (inside, length) in [(0, 3), (3, 2), (5, 5)] {
            wanted.extend([number, left_a + inside, left_b + inside, length, 0]);
        }
    }
    wanted.extend([5, 3, 50, 2, 0]);
    assert_eq!(table, wanted);
}

#[test]
fn a_cut_far_out() {
    const END: u32 = 1_000_000_000;
    let table = rows(
        Draft::lengths(END, END)
            .reversed(0, 0, END)
            .direct(END - 1, END - 1, 1),
    );
    let first = [
        [1, 0, END - 1, 1, 1],
        [1, 1, 1, END - 2, 1],
        [1, END - 1, 0, 1, 1],
    ];
    let wanted = [first.as_flattened(), &[2, END - 1, END - 1, 1, 0]].concat();
    assert_eq!(table, wanted);
}

#[test]
fn too_many_pieces_are_refused_early() {
    let nested = (0..2_048).fold(Draft::lengths(1_000_000_000, 1_000_000_000), |draft, i| {
        draft.direct(i, 3 * i, 900_000_000)
    });
    let (answer, _, _) = refined(&nested.end(), 15_000, 12_000);
    assert_eq!(answer, refused(Word::TooManyPieces, 0));
}

/// Each kind by a pair of matches that is of it, and by one that is not.
#[test]
fn right_ends_that_tell() {
    let kinds = |matches: &[Match]| ends::of(matches);
    let of = |left_a, left_b, length| Match {
        left_a,
        left_b,
        length,
        reversed: false,
    };
    let apart = [of(0, 0, 4), of(10, 10, 4)];
    assert!(kinds(&apart).is_empty());
    let touching = [of(0, 0, 4), of(4, 10, 4)];
    assert_eq!(kinds(&touching), [ends::AT_AN_END]);
    let on_a = [of(0, 0, 4), of(2, 10, 4)];
    assert_eq!(kinds(&on_a), [ends::INSIDE_ON_A]);
    let on_a_by_the_last = [of(2, 10, 4), of(0, 0, 4)];
    assert_eq!(
        kinds(&on_a_by_the_last),
        [ends::INSIDE_ON_A, ends::OF_THE_LAST]
    );
    let on_b = [of(20, 0, 4), of(0, 2, 4)];
    assert_eq!(kinds(&on_b), [ends::INSIDE_ON_B, ends::APART_ON_B]);
    let met_by_two = [of(2, 10, 4), of(0, 20, 4), of(1, 30, 3)];
    assert_eq!(kinds(&met_by_two), [ends::INSIDE_ON_A, ends::AT_AN_END]);
}
