//! The calls on scripts, lists and tables that the documentation does not show: growing, edges, there and back.

mod scripts;

use notchergrey::{carry, read, refine, refine_into, refine_within, report, rows_of, Error};
use notchergrey::{read_list, read_records_into, summary, write, write_into, List, Match};
use notchergrey::{Row, Script, Side, Word, CLASSES, ROW_NUMBERS, WORK_NUMBERS};
use scripts::{direct, many_matches, records, reversed, run_of_the_specification, script};
use scripts::{zigzag, EXAMPLES, LONG};
use std::collections::HashSet;

#[test]
fn the_room_grows_until_the_table_fits() {
    for letters in [1_499, 1_500, 1_501, 3_000, 3_001, 50_000] {
        let table = refine(&zigzag(letters)).unwrap();
        assert_eq!(table.len(), 2 * letters as usize);
        assert!(table.rows().all(|row| row.length == 1));
        let last = table.row(table.len() - 1).unwrap();
        assert_eq!((last.number, last.left_a), (2, letters - 1));
        assert_eq!(table.row(table.len()), None);
    }
}

#[test]
fn a_limit_of_rows_is_met_exactly() {
    for letters in [16, 1_500, 4_000] {
        let rows = 2 * letters as usize;
        assert_eq!(refine_within(&zigzag(letters), rows).unwrap().len(), rows);
        let Err(Error::Refused(refusal)) = refine_within(&zigzag(letters), rows - 1) else {
            panic!("{rows} rows");
        };
        assert_eq!((refusal.word(), refusal.place()), (Word::TooManyPieces, 0));
    }
}

#[test]
fn no_match_gives_no_row() {
    let script = script(LONG, 1, &[]);
    let read_script = Script {
        p: LONG,
        q: 1,
        matches: 0,
        marks: 0,
    };
    assert_eq!(read(&script), Ok(read_script));
    let table = refine(&script).unwrap();
    assert!(table.is_empty());
    assert!(table.rows_of(1).is_empty());
    let summary = table.summary();
    assert_eq!(
        (summary.pieces, summary.distinct, summary.covers),
        (0, 0, [0, 0])
    );
    assert_eq!(summary.classes, [0; CLASSES]);
}

#[test]
fn the_rows_of_a_match_are_a_part_of_the_table() {
    let table = refine(&run_of_the_specification()).unwrap();
    let of_two = table.rows_of(2);
    assert_eq!(of_two.as_ptr(), table.numbers()[4 * ROW_NUMBERS..].as_ptr());
    assert_eq!(of_two.len(), 4 * ROW_NUMBERS);
    let first = notchergrey::rows(of_two).next().unwrap();
    let wanted = Row {
        number: 2,
        left_a: 2,
        left_b: 7,
        length: 1,
        reversed: true,
    };
    assert_eq!(first, wanted);
    assert_eq!(rows_of(&[], 1), []);
}

#[test]
fn a_letter_under_two_rows_is_covered_once() {
    const MAX: u32 = u32::MAX;
    let most = u64::from(MAX);
    let row = [1, 2, 7, 5, 0];
    let tables: [(&[[u32; 5]], [u64; 2]); 9] = [
        (&[row], [5, 5]),
        (&[row, row], [5, 5]),
        (&[row, [2, 2, 7, 5, 1]], [5, 5]),
        (&[row, [2, 3, 8, 2, 0]], [5, 5]),
        (&[row, [1, 7, 12, 1, 0]], [6, 6]),
        (&[[2, 20, 9, 5, 1], row], [10, 7]),
        (&[row, [2, 0, 40, 0, 0]], [5, 5]),
        (&[[1, MAX, 0, 2, 0], [2, 0, 0, 1, 0]], [3, 2]),
        (&[[1, 0, 9, MAX, 0], [2, MAX, 9, MAX, 0]], [2 * most, most]),
    ];
    for (rows, covers) in tables {
        assert_eq!(summary(&rows.concat()).covers, covers, "{rows:?}");
    }
    assert_eq!(summary(&[&row[..], &[2, 20, 9, 5]].concat()).covers, [5, 5]);
}

#[test]
fn a_refined_table_covers_what_its_matches_cover() {
    let covered = |lefts_and_lengths: Vec<(u32, u32)>| -> u64 {
        let stretches = lefts_and_lengths.iter();
        let letters = stretches.flat_map(|&(left, length)| left..left + length);
        letters.collect::<HashSet<u32>>().len() as u64
    };
    for script in EXAMPLES {
        let matches = read_list(script).unwrap().matches;
        let on_a = matches.iter().map(|one| (one.left_a, one.length)).collect();
        let on_b = matches.iter().map(|one| (one.left_b, one.length)).collect();
        let table = refine(script).unwrap();
        assert_eq!(table.summary().covers, [covered(on_a), covered(on_b)]);
    }
}

#[test]
fn a_refused_refining_keeps_the_lent_buffers() {
    let script = run_of_the_specification();
    let mut table = [7; 7 * ROW_NUMBERS + 4];
    let mut work = [7; 7 * WORK_NUMBERS];
    let refusal = refine_into(&script, &mut table, &mut work[1..]).unwrap_err();
    assert_eq!(refusal.word(), Word::WorkTooShort);
    assert_eq!(work, [7; 7 * WORK_NUMBERS]);
    let refusal = refine_into(&script, &mut table, &mut work).unwrap_err();
    assert_eq!(refusal.word(), Word::TooManyPieces);
    assert_eq!(work, [0; 7 * WORK_NUMBERS]);
    assert_eq!(table, [7; 7 * ROW_NUMBERS + 4]);
}

#[test]
fn a_position_goes_there_and_back() {
    let script = run_of_the_specification();
    for position in 2..=7 {
        let carried = carry(&script, 2, Side::A, position).unwrap();
        assert_eq!(carried, 10 - position);
        assert_eq!(carry(&script, 2, Side::B, carried), Ok(position));
    }
}

#[test]
fn the_text_is_that_of_the_program() {
    let short = include_bytes!("../../../examples/two-matches.script");
    assert_eq!(
        report(short),
        include_str!("../../../examples/two-matches.txt")
    );
    let long = include_bytes!("../../../examples/2048-matches.script");
    assert_eq!(
        report(long),
        include_str!("../../../examples/2048-matches.txt")
    );
}

#[test]
fn a_script_goes_to_its_list_and_back() {
    let edges = script(LONG, 1, &[(b'R', [LONG - 1, 0, 1]), (b'D', [0, 0, 1])]);
    let made = [edges, many_matches(2_048)];
    for script in made.iter().map(Vec::as_slice).chain(EXAMPLES) {
        let list = read_list(script).unwrap();
        assert_eq!(write(list.p, list.q, &list.matches, &[]).unwrap(), script);
        let mut numbers = vec![7; 4 * list.matches.len() + 3];
        let found = read_records_into(script, &mut numbers, &mut []).unwrap();
        let Script { p, q, matches, .. } = found;
        assert_eq!((p, q, matches), (list.p, list.q, list.matches.len()));
        assert_eq!((found.marks, list.marks.len()), (0, 0));
        let (read, behind) = numbers.split_at(4 * matches);
        assert_eq!((read, behind), (&records(&list.matches)[..], &[7; 3][..]));
        let mut bytes = vec![7; script.len() + 3];
        assert_eq!(write_into(p, q, read, &[], &mut bytes), Ok(script.len()));
        assert_eq!(bytes, [script, &[7; 3]].concat());
    }
}

#[test]
fn a_list_goes_to_its_script_and_back() {
    let many = |count: u32| -> Vec<Match> {
        let turn = |at| [direct(at, 2 * at, at + 1), reversed(2 * at, at, 1)];
        (0..count).flat_map(turn).collect()
    };
    let edges = vec![reversed(0, 0, LONG), direct(LONG - 1, LONG - 1, 1)];
    for matches in [vec![], edges, many(1), many(17), many(1_024)] {
        let script = write(LONG, LONG, &matches, &[]).unwrap();
        let list = List {
            p: LONG,
            q: LONG,
            matches,
            marks: vec![],
        };
        assert_eq!(read_list(&script), Ok(list));
    }
}

#[test]
fn a_list_becomes_the_script_of_its_bytes() {
    let matches = [direct(0, 0, 6), reversed(2, 3, 5)];
    assert_eq!(write(10, 10, &matches, &[]), Ok(run_of_the_specification()));
    assert_eq!(write(1, LONG, &[], &[]), Ok(script(1, LONG, &[])));
}

#[test]
fn the_first_fault_of_a_list_counts() {
    // All are to go to a buffer without a byte.
    let many = [2; 4 * 2_049 + 1];
    let faults: [(Word, usize, u32, &[u32]); 8] = [
        (Word::LengthOutOfRange, 0, 0, &many),
        (Word::MalformedRecords, 0, 10, &many),
        (Word::TooManyMatches, 0, 10, &many[1..]),
        (Word::MalformedRecords, 2, 10, &[0, 0, 6, 0, 11, 11, 0, 2]),
        (Word::EmptyMatch, 2, 10, &[0, 0, 6, 0, 11, 11, 0, 1]),
        (Word::BeyondA, 2, 10, &[0, 0, 6, 0, 11, 11, 1, 1]),
        (Word::BeyondB, 1, 10, &[9, 10, 1, 1, 0, 0, 0, 2]),
        (Word::BufferTooShort, 0, 10, &[0, 0, 6, 0, 9, 9, 1, 1]),
    ];
    for (word, place, q, numbers) in faults {
        let refusal = write_into(10, q, numbers, &[], &mut []).unwrap_err();
        assert_eq!((refusal.word(), refusal.place()), (word, place));
    }
}

#[test]
fn a_refused_list_keeps_the_lent_buffer() {
    let good = [0, 0, 6, 0];
    let mut script = [7; 35];
    for last in [[2, 3, 5, 2], [2, 3, 0, 1], [6, 3, 5, 1], [2, 6, 5, 1], good] {
        let refusal = write_into(10, 10, &[good, last].concat(), &[], &mut script).unwrap_err();
        let wanted = if last == good { None } else { Some(2) };
        assert_eq!(refusal.record(), wanted);
        assert_eq!(script, [7; 35]);
    }
    assert!(write_into(0, 10, &good, &[], &mut script).is_err());
    assert!(write_into(10, 10, &good[1..], &[], &mut script).is_err());
    assert!(write_into(10, 10, &[1; 4 * 2_049], &[], &mut script).is_err());
    assert_eq!(script, [7; 35]);
}

#[test]
fn a_refused_script_keeps_the_lent_records() {
    let script = run_of_the_specification();
    let mut numbers = [7; 8];
    for refused in [&script[..35], &[&script[..], b"E"].concat()] {
        assert!(read_records_into(refused, &mut numbers, &mut []).is_err());
    }
    let refusal = read_records_into(&script, &mut numbers[..7], &mut []).unwrap_err();
    assert_eq!(refusal.word(), Word::BufferTooShort);
    assert_eq!(numbers, [7; 8]);
}
