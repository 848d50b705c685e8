//! Lists for the writer whose marks tell: many of them, faulty ones, counts that are odd.

use super::edges::{telling_operands, SOME_LENGTHS};
use super::faults::too_far;
use super::records::{
    every_tiny_record, faulty_list, few_records, good_list, good_mark_record, input,
    telling_numbers, List, MarkRecord, FAULTS,
};
use crate::random::Random;
use crate::slow::script::{MOST_MARKS, MOST_MATCHES};

/// Sides above 1, among them some that would be 0 or 1 in fewer bits.
const BAD_SIDES: [u32; 9] = [
    2,
    3,
    0xFF,
    0x100,
    0x101,
    0x1_0000,
    0x1_0001,
    1 << 31,
    u32::MAX,
];

/// A mark that cannot stand in a list with these p and q.
type MarkFault = fn(&mut Random, u32, u32) -> MarkRecord;

const MARK_FAULTS: [MarkFault; 3] = [
    |random, p, q| {
        let [_, position] = good_mark_record(random, p, q);
        [bad_side(random), position]
    },
    |random, p, q| [0, too_far(random, p, q)],
    |random, p, q| [1, too_far(random, q, p)],
];

fn bad_side(random: &mut Random) -> u32 {
    let any = random.between(2, u32::MAX);
    let telling = random.one_of(&BAD_SIDES);
    random.one_of(&[telling, telling, any])
}

/// 02, #106: the lines that were worked out for it, as lists, and one for each refusal and each order of two.
pub fn lines_of_106(_: &mut Random) -> Vec<Vec<u32>> {
    let run = [0, 0, 6, 0, 2, 3, 5, 1];
    let of_ten = |records: &[u32], marks: &[u32]| input(10, 10, records, marks);
    vec![
        of_ten(&run, &[0, 1]),
        of_ten(&run, &[0, 9]),
        of_ten(&run, &[1, 8, 0, 1, 1, 8]),
        of_ten(&[], &[0, 10, 1, 10]),
        of_ten(&[], &[2, 0]),
        of_ten(&[], &[0, 11]),
        of_ten(&[], &[1, 11]),
        of_ten(&[], &[2, 11]),
        of_ten(&run, &[0, 1, 256, 1]),
        of_ten(&run, &[0, 1, 1, 11]),
        of_ten(&run, &[0]),
        of_ten(&run[..7], &[0]),
        of_ten(&[0, 0, 0, 0], &[2, 0]),
        of_ten(&[0, 0, 0, 0], &[0; 1_026]),
        of_ten(&[], &[2; 1_024]),
        of_ten(&[], &[2; 1_026]),
        of_ten(&[0; 8_196], &[0; 1_026]),
        of_ten(&[0; 8_196], &[0; 1_027]),
        input(0, 10, &run, &[0]),
    ]
}

pub fn at_the_limits(_: &mut Random) -> Vec<Vec<u32>> {
    let mut lists = Vec::new();
    for (p, q) in SOME_LENGTHS {
        for position in telling_operands(p, q) {
            let sides = [0, 1].into_iter().chain(BAD_SIDES);
            lists.extend(sides.map(|side| input(p, q, &[0, 0, 1, 0], &[side, position])));
        }
    }
    lists
}

pub fn every_tiny_list(_: &mut Random) -> Vec<Vec<u32>> {
    let mut records = vec![vec![]];
    records.extend(every_tiny_record().iter().map(|record| record.to_vec()));
    let mut lists = Vec::new();
    for records in &records {
        for first in every_tiny_mark() {
            lists.push(input(1, 1, records, &first));
            let and_a_second = |second| input(1, 1, records, &[first, second].concat());
            lists.extend(every_tiny_mark().into_iter().map(and_a_second));
        }
    }
    lists
}

/// Every mark of the good numbers in one letter and the first bad ones.
fn every_tiny_mark() -> Vec<MarkRecord> {
    let on = |side| (0..=2).map(move |position| [side, position]);
    (0..=2).flat_map(on).collect()
}

pub fn around_the_most(random: &mut Random) -> Vec<Vec<u32>> {
    let mut lists = Vec::new();
    for records in [0, 1, 20, MOST_MATCHES, MOST_MATCHES + 1] {
        for marks in [MOST_MARKS - 1, MOST_MARKS, MOST_MARKS + 1] {
            let good = list_of(random, records, marks);
            let bad_lengths = good.with_bad_lengths(random);
            for list in [&good, &bad_lengths] {
                lists.push(list.numbers());
                lists.push(list.numbers_and(&[], &[0]));
                lists.push(list.numbers_and(&[0], &[]));
            }
            for fault in MARK_FAULTS {
                lists.extend(faulty_at_three_places(random, &good, fault));
            }
            if records > 0 {
                let fault = random.one_of(&FAULTS)(random, good.p, good.q);
                lists.push(good.with_record(0, fault).numbers());
                lists.push(good.with_record(records - 1, fault).numbers());
            }
        }
    }
    for marks in [1_024, 32_768, 32_769, 65_536, 65_537] {
        lists.push(list_of(random, 3, marks).numbers());
    }
    lists
}

fn list_of(random: &mut Random, records: usize, marks: usize) -> List {
    let list = good_list(random, records);
    let (p, q) = (list.p, list.q);
    List {
        marks: (0..marks).map(|_| good_mark_record(random, p, q)).collect(),
        ..list
    }
}

fn some_marks(random: &mut Random) -> List {
    let [records, marks] = [random.count_between(0, 20), random.count_between(1, 20)];
    list_of(random, records, marks)
}

pub fn many(random: &mut Random) -> Vec<Vec<u32>> {
    let mut lists = Vec::new();
    for _ in 0..20 {
        let records = random.count_between(0, 100);
        let marks = random.count_between(21, MOST_MARKS);
        lists.push(list_of(random, records, marks).numbers());
    }
    lists
}

pub fn one_fault(random: &mut Random) -> Vec<Vec<u32>> {
    let mut lists = Vec::new();
    for _ in 0..10 {
        for fault in MARK_FAULTS {
            let good = some_marks(random);
            lists.extend(faulty_at_three_places(random, &good, fault));
        }
    }
    lists
}

/// The fault in place of the first, of a middle and of the last mark.
fn faulty_at_three_places(random: &mut Random, good: &List, fault: MarkFault) -> [Vec<u32>; 3] {
    let last = good.marks.len() - 1;
    let middle = random.count_between(0, last);
    [0, middle, last].map(|index| {
        let mark = fault(random, good.p, good.q);
        with_mark(good, index, mark).numbers()
    })
}

fn with_mark(list: &List, index: usize, mark: MarkRecord) -> List {
    let mut list = list.clone();
    list.marks[index] = mark;
    list
}

/// The first one counts, and any record before any mark. Some marks have both faults.
pub fn several_faulty(random: &mut Random) -> Vec<Vec<u32>> {
    let mut lists = Vec::new();
    for _ in 0..30 {
        let (faulty, good) = (faulty_list(random), few_records(random));
        let [faulty, good] = [faulty, good].map(|list| with_faulty_marks(random, list));
        let (bad, bad_too) = (
            faulty.with_bad_lengths(random),
            good.with_bad_lengths(random),
        );
        lists.extend([faulty, good, bad, bad_too].map(|list| list.numbers()));
    }
    lists
}

fn with_faulty_marks(random: &mut Random, list: List) -> List {
    let (p, q) = (list.p, list.q);
    let mut marks: Vec<MarkRecord> = Vec::new();
    for _ in 0..random.between(1, 8) {
        let fault = random.one_of(&MARK_FAULTS)(random, p, q);
        let both = [bad_side(random), too_far(random, p.max(q), p.max(q))];
        let good = good_mark_record(random, p, q);
        marks.push(random.one_of(&[fault, both, good, good]));
    }
    List { marks, ..list }
}

/// A number behind the marks, or up to three behind the records, or both, of good and faulty lists.
pub fn odd_counts(random: &mut Random) -> Vec<Vec<u32>> {
    let mut lists = Vec::new();
    for _ in 0..15 {
        let others = random.count_between(1, 3);
        let others = telling_numbers(random, others);
        let other = telling_numbers(random, 1);
        let faulty = faulty_list(random);
        let faulty = with_faulty_marks(random, faulty);
        let bad = faulty.with_bad_lengths(random);
        for list in [some_marks(random), faulty, bad] {
            lists.push(list.numbers_and(&[], &other));
            lists.push(list.numbers_and(&others, &other));
            lists.push(list.numbers_and(&others, &[]));
        }
    }
    lists
}
