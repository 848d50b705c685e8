//! The slow program counts covered letters: by hand, and both of its counts beside sets of letters.

use compare::draft::{Draft, DraftMatch};
use compare::random::Random;
use compare::slow::report::report;
use compare::slow::script::read;
use compare::slow::table::{refine, summary};
use std::collections::BTreeSet;
use std::path::Path;
use std::{fs, io};

const F: u32 = u32::MAX;
/// The letters up to the end of 32 bits.
const ALL: u64 = 1 << 32;

/// Rows of left-A, left-B and length, as a table.
fn table_of(rows: &[[u32; 3]]) -> Vec<u32> {
    rows.iter()
        .flat_map(|&[left_a, left_b, length]| [1, left_a, left_b, length, 0])
        .collect()
}

fn covers(rows: &[[u32; 3]]) -> [u64; 2] {
    summary(&table_of(rows)).covers
}

/// By the rows that the script refines to, if it has a table, and by its matches.
fn covers_of_script(script: &[u8]) -> Option<[[u64; 2]; 2]> {
    let mut table = vec![0; 5 * 3_000];
    let mut work = vec![0; 4 * 3_000];
    let rows = refine(script, &mut table, &mut work).ok()?;
    let matches = read(script).expect("it has a table");
    Some([summary(&table[..5 * rows]).covers, matches.covers()])
}

#[test]
fn scripts_by_hand() {
    let of_ten = || Draft::lengths(10, 10);
    for (script, wanted) in [
        // "in 01's run, covers 7 8"
        (of_ten().direct(0, 0, 6).reversed(2, 3, 5), [7, 8]),
        (Draft::lengths(5, 5).direct(0, 0, 4).direct(0, 1, 4), [4, 5]),
        (
            Draft::lengths(10, 20)
                .direct(0, 0, 3)
                .direct(2, 10, 3)
                .reversed(7, 19, 1),
            [6, 7],
        ),
        (of_ten(), [0, 0]),
        (of_ten().direct(0, 0, 10), [10, 10]),
        (of_ten().reversed(9, 0, 1), [1, 1]),
        (of_ten().direct(0, 0, 4).direct(0, 0, 4), [4, 4]),
        (of_ten().direct(0, 0, 4).reversed(0, 0, 4), [4, 4]),
        (of_ten().direct(0, 0, 4).direct(4, 4, 4), [8, 8]),
        (of_ten().direct(0, 6, 4).direct(4, 0, 4), [8, 8]),
        (of_ten().direct(0, 0, 8).reversed(3, 9, 1), [8, 9]),
    ] {
        let script = script.end();
        assert_eq!(covers_of_script(&script), Some([wanted; 2]));
        let [on_a, on_b] = wanted;
        let text = report(&script);
        let second_line = text.lines().nth(1).expect("a second line");
        assert!(second_line.ends_with(&format!(" covers {on_a} {on_b}")));
    }
}

#[test]
fn nothing_is_covered() {
    assert_eq!(covers(&[]), [0, 0]);
    assert_eq!(covers(&[[0, 0, 0]]), [0, 0]);
    assert_eq!(covers(&[[F, F, 0], [0, F, 0], [7, 7, 0]]), [0, 0]);
}

#[test]
fn overlaps_count_once() {
    assert_eq!(covers(&[[0, 0, 4], [2, 1, 4]]), [6, 5]);
    assert_eq!(covers(&[[2, 1, 4], [0, 0, 4]]), [6, 5]);
    assert_eq!(covers(&[[0, 0, 4], [3, 5, 4], [6, 2, 4]]), [10, 9]);
    assert_eq!(covers(&[[5, 6, 7]; 3]), [7, 7]);
}

#[test]
fn rows_that_touch_lose_no_letter() {
    assert_eq!(covers(&[[0, 10, 4], [4, 6, 4]]), [8, 8]);
    assert_eq!(covers(&[[0, 2, 1], [1, 1, 1], [2, 0, 1]]), [3, 3]);
}

#[test]
fn the_letter_between_is_not_covered() {
    assert_eq!(covers(&[[0, 9, 4], [5, 0, 4]]), [8, 8]);
    assert_eq!(covers(&[[0, 0, 1], [2, 2, 1], [4, 4, 1]]), [3, 3]);
}

#[test]
fn rows_within_others_add_nothing() {
    assert_eq!(covers(&[[10, 20, 10], [12, 22, 3], [10, 27, 3]]), [10, 10]);
    assert_eq!(covers(&[[12, 22, 3], [17, 20, 3], [10, 20, 10]]), [10, 10]);
    // After a short row within a long one, a row that is in neither.
    assert_eq!(covers(&[[0, 0, 10], [1, 1, 2], [12, 13, 1]]), [11, 11]);
    // And one that the long row still reaches.
    assert_eq!(covers(&[[0, 0, 10], [1, 1, 2], [8, 9, 4]]), [12, 13]);
}

#[test]
fn rows_of_no_letter_part_nothing() {
    let rows = [[3, 3, 4], [5, 7, 0], [3, 0, 0], [7, 9, 0], [7, 8, 2]];
    assert_eq!(covers(&rows), [6, 6]);
}

#[test]
fn each_side_by_its_own_left_ends() {
    assert_eq!(covers(&[[0, 0, 5], [0, 100, 5], [0, 200, 5]]), [5, 15]);
    assert_eq!(covers(&[[0, 0, 5], [100, 0, 5], [200, 0, 5]]), [15, 5]);
}

#[test]
fn any_match_number_and_direction() {
    for direction in [0, 1, 2, F] {
        let table = [[F, 1, 2, 3, direction], [0, 2, 9, 3, 1 - direction.min(1)]];
        assert_eq!(summary(table.as_flattened()).covers, [4, 6]);
    }
}

#[test]
fn right_ends_do_not_wrap() {
    // On A from F as far again, and the first letter; on B all up to F, and the letter F.
    assert_eq!(covers(&[[F, 0, F], [0, F, 1]]), [ALL, ALL]);
    assert_eq!(covers(&[[F, F, 1]]), [1, 1]);
    assert_eq!(covers(&[[F, F, 2], [0, 1, 1]]), [3, 3]);
    assert_eq!(covers(&[[F, F, F], [0, 5, F]]), [2 * ALL - 2, 2 * ALL - 7]);
    assert_eq!(covers(&[[F - 1, 0, 5], [F, 1, 9]]), [10, 10]);
}

#[test]
fn the_whole_of_33_bits() {
    let all = u64::from(F);
    assert_eq!(covers(&[[0, 0, F]]), [all, all]);
    assert_eq!(covers(&[[0, F, F], [F, 0, F]]), [2 * all, 2 * all]);
}

#[test]
fn many_rows_apart() {
    let mut rows: Vec<[u32; 3]> = (0..40_000)
        .map(|k| [100_000 * k, 3 * (39_999 - k), 2])
        .collect();
    assert_eq!(covers(&rows), [80_000, 80_000]);
    rows.push([0, 0, 100_000 * 20_000]);
    let half = 2_000_000_000;
    assert_eq!(covers(&rows), [half + 40_000, half]);
}

/// Every table of two rows whose numbers are below 4, at the beginning and about the end of 32
/// bits.
#[test]
fn every_tiny_table() {
    let rows = every_row(4);
    for &first in &rows {
        for &second in &rows {
            let wanted = by_letters(&[first, second]);
            assert_eq!(covers(&[first, second]), wanted);
            let far_out = [first, second].map(|[a, b, length]| [a + (F - 3), b + (F - 3), length]);
            assert_eq!(covers(&far_out), wanted);
        }
    }
}

fn every_row(below: u32) -> Vec<[u32; 3]> {
    let mut rows = Vec::new();
    for left_a in 0..below {
        for left_b in 0..below {
            rows.extend((0..below).map(|length| [left_a, left_b, length]));
        }
    }
    rows
}

/// "the number of letters in at least one row's stretch", letter by letter.
fn by_letters(rows: &[[u32; 3]]) -> [u64; 2] {
    [0, 1].map(|side| {
        let stretch = |row: &[u32; 3]| row[side]..row[side] + row[2];
        let letters: BTreeSet<u32> = rows.iter().flat_map(stretch).collect();
        letters.len() as u64
    })
}

#[test]
fn any_small_tables() {
    let mut random = Random::from_seed(102);
    for _ in 0..3_000 {
        let count = random.count_between(0, 25);
        let [letters, longest] = [200, 30].map(|most| random.between(0, most));
        let row = |_| [letters, letters, longest].map(|most| random.between(0, most));
        let rows: Vec<[u32; 3]> = (0..count).map(row).collect();
        assert_eq!(covers(&rows), by_letters(&rows));
    }
}

/// The rows of a match cover just its letters, so that both counts are the number of letters of the
/// matches.
#[test]
fn any_small_scripts() {
    let mut random = Random::from_seed(102);
    for _ in 0..1_000 {
        let count = random.count_between(0, 8);
        let matches: Vec<DraftMatch> = (0..count).map(|_| small_match(&mut random)).collect();
        let draft = matches
            .iter()
            .fold(Draft::lengths(60, 60), |draft, &m| draft.matching(m));
        let rows: Vec<[u32; 3]> = matches
            .iter()
            .map(|m| [m.left_a, m.left_b, m.length])
            .collect();
        let wanted = by_letters(&rows);
        assert_eq!(covers_of_script(&draft.end()), Some([wanted; 2]));
    }
}

fn small_match(random: &mut Random) -> DraftMatch {
    let length = random.between(1, 20);
    DraftMatch {
        left_a: random.between(0, 60 - length),
        left_b: random.between(0, 60 - length),
        length,
        reversed: random.any_bool(),
    }
}

/// Both counts agree on the scripts of real sequences too, and on those with the most matches and
/// rows.
#[test]
fn the_scripts_of_examples() -> io::Result<()> {
    let examples = Path::new(env!("CARGO_MANIFEST_DIR")).join("../examples");
    let mut tables = 0;
    for folder in [examples.clone(), examples.join("real")] {
        for entry in fs::read_dir(folder)? {
            let path = entry?.path();
            if path
                .extension()
                .is_none_or(|extension| extension != "script")
            {
                continue;
            }
            if let Some([by_rows, by_matches]) = covers_of_script(&fs::read(&path)?) {
                assert_eq!(by_rows, by_matches, "{}", path.display());
                tables += 1;
            }
        }
    }
    assert_eq!(tables, 5 + 3);
    Ok(())
}
