//! The slow program's calls on finished tables, on our own tables and on arbitrary numbers.

use compare::slow::table::{rows_of, summary, CLASSES};

/// Rows of which only the match number tells.
fn table_of(numbers: &[u32]) -> Vec<u32> {
    numbers
        .iter()
        .flat_map(|&number| [number, 7, 8, 9, 0])
        .collect()
}

#[test]
fn rows_of_a_match() {
    let table = table_of(&[1, 1, 2, 5, 5, 5]);
    assert_eq!(rows_of(&table, 1), 0..10);
    assert_eq!(rows_of(&table, 2), 10..15);
    assert_eq!(rows_of(&table, 5), 15..30);
}

#[test]
fn no_row_of_a_match() {
    let table = table_of(&[1, 1, 2, 5, 5, 5]);
    for number in [0, 3, 6, 7, u32::MAX] {
        assert_eq!(rows_of(&table, number), 0..0);
    }
    assert_eq!(rows_of(&[], 0), 0..0);
}

#[test]
fn the_first_run_up_to_its_break() {
    let table = table_of(&[4, 3, 3, 4, 3, 0, 0]);
    assert_eq!(rows_of(&table, 4), 0..5);
    assert_eq!(rows_of(&table, 3), 5..15);
    assert_eq!(rows_of(&table, 0), 25..35);
}

#[test]
fn numbers_that_form_no_row() {
    let whole = table_of(&[1, 2]);
    for rest in [&[2][..], &[2, 7, 8, 9], &[3]] {
        let table = [&whole, rest].concat();
        assert_eq!(rows_of(&table, 2), 5..10);
        assert_eq!(rows_of(&table, 3), 0..0);
        assert_eq!(summary(&table), summary(&whole));
    }
}

#[test]
fn nothing_to_sum_up() {
    for table in [&[][..], &[1, 2, 3, 4]] {
        let summary = summary(table);
        assert_eq!((summary.pieces, summary.distinct), (0, 0));
        assert_eq!(summary.covers, [0, 0]);
        assert_eq!(summary.classes, [0; CLASSES]);
    }
}

#[test]
fn distinct_pieces_differ_in_left_a_left_b_length_or_direction() {
    let rows = [
        [1, 10, 20, 30, 0],
        [1, 11, 20, 30, 0],
        [1, 10, 21, 30, 0],
        [1, 10, 20, 31, 0],
        [1, 10, 20, 30, 1],
        [1, 10, 20, 30, 0],
        [2, 10, 20, 30, 1],
    ];
    let summary = summary(rows.as_flattened());
    assert_eq!((summary.pieces, summary.distinct), (7, 5));
}

#[test]
fn directions_are_compared_as_numbers() {
    let rows = [2, 3, u32::MAX, 3, 2].map(|direction| [1, 10, 20, 30, direction]);
    assert_eq!(summary(rows.as_flattened()).distinct, 3);
}

#[test]
fn classes_at_their_bounds() {
    for c in 0..CLASSES {
        let (first, last) = (1 << c, (1 << (c + 1)) - 1);
        for length in [first, last] {
            let mut wanted = [0; CLASSES];
            wanted[c] = 1;
            assert_eq!(summary(&[0, 0, 0, length, 0]).classes, wanted);
        }
    }
}

#[test]
fn lengths_of_no_class() {
    for length in [0, 1 << 30, 1 << 31, u32::MAX] {
        let summary = summary(&[1, 0, 0, length, 7]);
        assert_eq!(summary.classes, [0; CLASSES]);
        assert_eq!((summary.pieces, summary.covers), (1, [length.into(); 2]));
    }
}
