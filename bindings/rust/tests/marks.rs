//! Marks: the worked lines of the request, what a mark is as a cut, lists with marks there and back, what is refused.

mod scripts;

use notchergrey::{backbone, carry, find_match, read, read_list, read_records_into, refine};
use notchergrey::{refine_into, report, write, write_into, List, Mark, Match, Refusal, Side, Word};
use notchergrey::{MARK_NUMBERS, RECORD_NUMBERS, ROW_NUMBERS};
use scripts::{command, direct, followed_by, many_matches, mark_command, numbers, on_a, on_b};
use scripts::{records, reversed, run_of_the_specification, script, zigzag, LONG};

fn run_matches() -> [Match; 2] {
    [direct(0, 0, 6), reversed(2, 3, 5)]
}

/// The count of rows of sequences of ten letters.
fn rows_with(matches: &[Match], marks: &[Mark]) -> usize {
    refine(&write(10, 10, matches, marks).unwrap())
        .unwrap()
        .len()
}

fn word_and_place(refusal: Refusal) -> (Word, usize) {
    (refusal.word(), refusal.place())
}

/// Lengths 10 10, and this behind them.
fn ten_letters(commands: &[Vec<u8>]) -> Vec<u8> {
    followed_by(&script(10, 10, &[]), commands)
}

#[test]
fn the_worked_lines_of_tables() {
    assert_eq!(rows_with(&run_matches(), &[on_a(1)]), 9);
    assert_eq!(rows_with(&run_matches(), &[on_a(9)]), 8);

    let unspanned = [on_a(5), on_a(6), on_b(7)];
    let script = write(10, 10, &[direct(0, 0, 1)], &unspanned).unwrap();
    let (mut table, mut work) = ([7; 5], [7; 4]);
    let refined = refine_into(&script, &mut table, &mut work).unwrap();
    assert_eq!(refined, [1, 0, 0, 1, 0]);
    assert_eq!(work, [0; 4]);

    let script = write(10, 10, &[direct(0, 0, 4)], &[on_a(2)]).unwrap();
    let (mut table, mut work) = ([7; 10], [7; 8]);
    let refined = refine_into(&script, &mut table, &mut work).unwrap();
    assert_eq!(refined, [1, 0, 0, 2, 0, 1, 2, 2, 2, 0]);
    let (mut table, mut work) = ([7; 9], [7; 8]);
    let refusal = refine_into(&script, &mut table, &mut work).unwrap_err();
    assert_eq!(word_and_place(refusal), (Word::TooManyPieces, 0));
    assert_eq!((table, work), ([7; 9], [0; 8]));
}

#[test]
fn the_worked_lines_of_refusals() {
    let refused = |mark| word_and_place(read(&ten_letters(&[mark])).unwrap_err());
    assert_eq!(refused(mark_command(2, 0)), (Word::NoSuchSide, 9));
    assert_eq!(refused(mark_command(0, 11)), (Word::MarkBeyond, 9));
    assert_eq!(read(&ten_letters(&[mark_command(0, 10)])).unwrap().marks, 1);
    let most = vec![mark_command(0, 10); 512];
    assert_eq!(read(&ten_letters(&most)).unwrap().marks, 512);
    let one_more = ten_letters(&[most.concat(), b"M".to_vec()]);
    let refusal = read(&one_more).unwrap_err();
    assert_eq!(word_and_place(refusal), (Word::TooManyMarks, 3_081));
}

#[test]
fn the_first_fault_of_a_mark_counts() {
    let most = mark_command(0, 0).repeat(512);
    let lines: [(Word, &[u8], &[u8]); 8] = [
        // Each also meets what comes behind it.
        (Word::TooManyMarks, &most, b"M"),
        (Word::TooManyMarks, &most, b"M\x02\xff\xff\xff\xff"),
        (Word::CutShort, &[], b"M"),
        (Word::CutShort, &[], b"M\x02\xff\xff\xff"),
        (Word::NoSuchSide, &[], b"M\x02\xff\xff\xff\xff"),
        (Word::NoSuchSide, &[], b"M\xff\0\0\0\0"),
        (Word::MarkBeyond, &[], b"M\x01\xff\xff\xff\xff"),
        (Word::MarkBeyond, &[], b"M\0\x0b\0\0\0L"),
    ];
    for (word, before, mark) in lines {
        let bytes = [&command(b'L', &[10, 20]), before, mark].concat();
        let place = 9 + before.len();
        assert_eq!(word_and_place(read(&bytes).unwrap_err()), (word, place));
    }
    // B has twenty letters, and a mark may lie at the end of the last one.
    let at = |side, position| {
        read(&followed_by(
            &script(10, 20, &[]),
            &[mark_command(side, position)],
        ))
    };
    assert!(at(0, 10).is_ok() && at(1, 20).is_ok());
    assert!(at(0, 11).is_err() && at(1, 21).is_err());
}

#[test]
fn a_mark_is_a_cut_on_its_own_side_and_is_carried_on() {
    let lefts = |matches: &[Match], marks: &[Mark]| -> Vec<(u32, u32, u32)> {
        let table = refine(&write(40, 40, matches, marks).unwrap()).unwrap();
        let rows = table.rows();
        rows.map(|row| (row.number, row.left_a, row.left_b))
            .collect()
    };
    // A 3 is no cut of a match that spans 3 on B alone.
    let apart = [direct(20, 0, 6)];
    assert_eq!(lefts(&apart, &[on_a(3)]), [(1, 20, 0)]);
    assert_eq!(lefts(&apart, &[on_b(3)]), [(1, 20, 0), (1, 23, 3)]);
    assert_eq!(lefts(&apart, &[on_a(22)]), [(1, 20, 0), (1, 22, 2)]);
    // Both ends of a match are cuts without a mark.
    let ends = [on_a(20), on_a(26), on_b(0), on_b(6)];
    assert_eq!(lefts(&apart, &ends), [(1, 20, 0)]);
    // Over the reversed match A 1 is B 13, and over the second B 13 is A 33.
    let chained = [reversed(0, 10, 4), direct(30, 10, 4)];
    let wanted = [(1, 0, 13), (1, 1, 10), (2, 30, 10), (2, 33, 13)];
    for mark in [on_a(1), on_b(13), on_a(33)] {
        assert_eq!(lefts(&chained, &[mark]), wanted);
        assert_eq!(lefts(&chained, &[mark, mark, on_a(17), mark]), wanted);
    }
}

#[test]
fn no_piece_has_a_mark_inside() {
    for position in 0..=10 {
        for mark in [on_a(position), on_b(position)] {
            let table = refine(&write(10, 10, &run_matches(), &[mark]).unwrap()).unwrap();
            let inside = table.rows().any(|row| {
                let left = match mark.side {
                    Side::A => row.left_a,
                    Side::B => row.left_b,
                };
                left < position && position < left + row.length
            });
            assert!(!inside, "{mark:?}");
        }
    }
}

/// The matches of the run and two marks, in each order that keeps the matches' order.
fn mixed_scripts() -> Vec<Vec<u8>> {
    let [first, second] = [command(b'D', &[0, 0, 6]), command(b'R', &[2, 3, 5])];
    let [a, b] = [mark_command(0, 1), mark_command(1, 7)];
    let orders = [
        [&first, &second, &a, &b],
        [&first, &a, &second, &b],
        [&first, &a, &b, &second],
        [&a, &first, &second, &b],
        [&a, &first, &b, &second],
        [&a, &b, &first, &second],
    ];
    let in_order = |order: [&Vec<u8>; 4]| ten_letters(&order.map(Vec::clone));
    orders.into_iter().map(in_order).collect()
}

#[test]
fn marks_may_stand_between_matches_and_change_no_match() {
    let without = run_of_the_specification();
    let scripts = mixed_scripts();
    let wanted = refine(&scripts[0]).unwrap();
    for script in &scripts {
        let found = read(script).unwrap();
        assert_eq!((found.matches, found.marks), (2, 2));
        assert_eq!(refine(script).unwrap(), wanted);
        assert_eq!(report(script), report(&scripts[0]));
        for number in 0..4 {
            assert_eq!(find_match(script, number), find_match(&without, number));
            let carried = |script| carry(script, number, Side::B, 7);
            assert_eq!(carried(script), carried(&without));
        }
    }
}

#[test]
fn the_backbone_goes_by_the_pieces_that_marks_make() {
    let best = |marks: &[Mark]| backbone(&write(10, 10, &run_matches(), marks).unwrap(), 1);
    let with_mark = best(&[on_a(1)]).unwrap();
    assert_eq!(with_mark.score(), best(&[]).unwrap().score());
    assert_eq!(with_mark.chain(), [1, 2, 3, 4, 5]);
    assert_eq!(best(&[on_a(9)]), best(&[]));
}

#[test]
fn the_room_grows_where_marks_stand_between_the_matches() {
    let letters = 4_000;
    let mut bytes = zigzag(letters);
    for at in [9, 9 + 6 + 13] {
        bytes.splice(at..at, mark_command(0, letters - 1));
    }
    assert_eq!(read(&bytes).unwrap().marks, 2);
    assert_eq!(refine(&bytes).unwrap().len(), 2 * letters as usize);
    assert_eq!(backbone(&bytes, 1).unwrap().score(), u64::from(letters));
}

#[test]
fn a_list_with_marks_goes_to_its_script_and_back() {
    let many = vec![direct(0, 0, 1); 2_048];
    let marks = |count: u32| -> Vec<Mark> {
        let turn = |at| [on_a(at), on_b(LONG - at)];
        (0..count).flat_map(turn).collect()
    };
    let lists = [
        (vec![], marks(1)),
        (run_matches().to_vec(), marks(3)),
        (run_matches().to_vec(), vec![on_a(1), on_a(1)]),
        (many, marks(256)),
    ];
    for (matches, marks) in lists {
        let bytes = write(LONG, LONG, &matches, &marks).unwrap();
        let mut found = (
            vec![7; RECORD_NUMBERS * matches.len() + 3],
            vec![7; MARK_NUMBERS * marks.len() + 3],
        );
        let counts = read_records_into(&bytes, &mut found.0, &mut found.1).unwrap();
        assert_eq!((counts.matches, counts.marks), (matches.len(), marks.len()));
        assert_eq!(found.0, [records(&matches), vec![7; 3]].concat());
        assert_eq!(found.1, [numbers(&marks), vec![7; 3]].concat());
        let list = List {
            p: LONG,
            q: LONG,
            matches,
            marks,
        };
        assert_eq!(read_list(&bytes), Ok(list));
    }
}

#[test]
fn a_script_comes_back_if_its_matches_are_before_its_marks() {
    let scripts = mixed_scripts();
    for script in &scripts {
        let list = read_list(script).unwrap();
        assert_eq!(list.matches, run_matches());
        assert_eq!(list.marks, [on_a(1), on_b(7)]);
        let back = write(list.p, list.q, &list.matches, &list.marks).unwrap();
        assert_eq!(back, scripts[0]);
        assert_eq!(read_list(&back), Ok(list));
    }
    let only_marks = ten_letters(&[mark_command(1, 10), mark_command(0, 0)]);
    let list = read_list(&only_marks).unwrap();
    assert_eq!(write(10, 10, &[], &list.marks), Ok(only_marks));
    assert_eq!(
        refine(&write(10, 10, &[], &list.marks).unwrap())
            .unwrap()
            .len(),
        0
    );
}

#[test]
fn the_first_fault_of_a_list_with_marks_counts() {
    // All are to go to a buffer without a byte.
    let many = [2; 4 * 2_049];
    let many_marks = [2; 2 * 513 + 1];
    let good = [0, 0, 6, 0];
    let two = [0, 0, 6, 0, 2, 3, 5, 1];
    type Line<'a> = (Word, usize, u32, &'a [u32], &'a [u32]);
    let faults: [Line; 12] = [
        (Word::LengthOutOfRange, 0, 0, &many, &many_marks),
        (Word::MalformedRecords, 0, 20, &many, &many_marks),
        (Word::MalformedRecords, 0, 20, &many[1..], &[]),
        (Word::TooManyMatches, 0, 20, &many, &many_marks[1..]),
        (Word::TooManyMarks, 0, 20, &[0; 4], &many_marks[1..]),
        (Word::EmptyMatch, 1, 20, &[0; 4], &[2, 99]),
        (Word::NoSuchSide, 2, 20, &good, &[2, 99]),
        (Word::NoSuchSide, 1, 20, &[], &[2, 0, 0, 11]),
        (Word::MarkBeyond, 4, 20, &two, &[0, 10, 0, 11, 2, 0]),
        (Word::MarkBeyond, 3, 20, &two, &[1, 21]),
        (Word::MarkBeyond, 5, 20, &two, &[0, 10, 1, 20, 0, u32::MAX]),
        (Word::BufferTooShort, 0, 20, &two, &[0, 10, 1, 20]),
    ];
    for (word, place, q, records, marks) in faults {
        let refusal = write_into(10, q, records, marks, &mut []).unwrap_err();
        assert_eq!(word_and_place(refusal), (word, place));
        let matches = records.len() / RECORD_NUMBERS;
        let is_mark = place > matches;
        assert_eq!(refusal.mark(), is_mark.then(|| place - matches));
        assert_eq!(refusal.record().is_some(), place > 0 && !is_mark);
    }
}

#[test]
fn a_refused_list_with_marks_keeps_the_lent_buffer() {
    let good = records(&run_matches());
    let length = write(10, 10, &run_matches(), &[on_a(1)]).unwrap().len();
    let mut bytes = vec![7; length];
    for mark in [[2, 0], [u32::MAX, 0], [0, 11], [1, 11]] {
        let refusal = write_into(10, 10, &good, &mark, &mut bytes).unwrap_err();
        assert_eq!(refusal.mark(), Some(1));
        assert_eq!(bytes, vec![7; length]);
    }
    let refusal = write_into(10, 10, &good, &[0, 1], &mut bytes[1..]).unwrap_err();
    assert_eq!(word_and_place(refusal), (Word::BufferTooShort, 0));
    assert_eq!(bytes, vec![7; length]);
    assert_eq!(write_into(10, 10, &good, &[0, 1], &mut bytes), Ok(length));
}

#[test]
fn a_script_that_does_not_fit_keeps_both_lent_lists() {
    let script = followed_by(&run_of_the_specification(), &[mark_command(1, 7)]);
    let (mut records, mut marks) = ([7; 8], [7; 2]);
    let refusal = read_records_into(&script, &mut records[1..], &mut marks).unwrap_err();
    assert_eq!(word_and_place(refusal), (Word::BufferTooShort, 0));
    let refusal = read_records_into(&script, &mut records, &mut marks[1..]).unwrap_err();
    assert_eq!(word_and_place(refusal), (Word::BufferTooShort, 0));
    let tail = [&script[..], b"E"].concat();
    assert!(read_records_into(&tail, &mut records, &mut marks).is_err());
    assert_eq!((records, marks), ([7; 8], [7; 2]));
    let found = read_records_into(&script, &mut records, &mut marks).unwrap();
    assert_eq!((found.matches, found.marks, marks), (2, 1, [1, 7]));
}

#[test]
fn a_refused_mark_is_said_in_words() {
    let refusal = write(10, 10, &run_matches(), &[on_a(1), on_b(11)]).unwrap_err();
    assert_eq!(
        refusal.to_string(),
        "refused as mark beyond (21) at mark 2: this mark lies behind the last letter of its side; check its position, \
         which is counted from 0, its side, and the length of that sequence"
    );
    let refusal = read(&ten_letters(&[mark_command(7, 0)])).unwrap_err();
    assert_eq!(
        refusal.to_string(),
        "refused as no such side (20) at byte 9: the side of this mark is neither 0 nor 1; give 0 for a position of A \
         and 1 for a position of B"
    );
    let most = followed_by(&many_matches(3), &vec![mark_command(0, 0); 513]);
    let text = read(&most).unwrap_err().to_string();
    assert!(text.starts_with("refused as too many marks (19) at byte 3120: "));
}

#[test]
fn a_table_has_room_for_the_marks_that_are_cuts() {
    // Each mark that some match spans adds one cut on either side, and one row.
    let marks: Vec<Mark> = (1..=512).map(on_a).collect();
    let script = write(LONG, LONG, &[direct(0, 1_000, 1_000)], &marks).unwrap();
    let rows = 513;
    let mut table = vec![7; rows * ROW_NUMBERS];
    let mut work = vec![7; rows * 4];
    let refined = refine_into(&script, &mut table, &mut work).unwrap();
    assert_eq!(refined.len(), rows * ROW_NUMBERS);
    let short = &mut table[..rows * ROW_NUMBERS - 1];
    let refusal = refine_into(&script, short, &mut work).unwrap_err();
    assert_eq!(refusal.word(), Word::TooManyPieces);
}
