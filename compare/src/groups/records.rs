//! Lists for the writer, good and faulty, with and without marks.

use super::edges::{telling_lengths, telling_operands, SOME_LENGTHS};
use super::faults::{
    bad_lengths, match_beyond_a, match_beyond_b, match_of_no_letter, match_of_several_faults,
};
use super::good::{good_mark, good_match, sequence_length, LONGEST};
use crate::draft::DraftMatch;
use crate::list;
use crate::random::Random;
use crate::slow::records::{NUMBERS_OF_A_MARK, NUMBERS_OF_A_RECORD};
use crate::slow::script::MOST_MATCHES;

pub type Record = [u32; NUMBERS_OF_A_RECORD];
pub type MarkRecord = [u32; NUMBERS_OF_A_MARK];

#[derive(Clone)]
pub struct List {
    pub p: u32,
    pub q: u32,
    pub records: Vec<Record>,
    pub marks: Vec<MarkRecord>,
}

impl List {
    pub fn numbers(&self) -> Vec<u32> {
        self.numbers_and(&[], &[])
    }

    /// Behind the last record some numbers that form none, and behind the last mark.
    pub fn numbers_and(&self, others: &[u32], other_of_marks: &[u32]) -> Vec<u32> {
        let records = [self.records.as_flattened(), others].concat();
        let marks = [self.marks.as_flattened(), other_of_marks].concat();
        input(self.p, self.q, &records, &marks)
    }

    pub fn with_record(&self, index: usize, record: Record) -> List {
        let mut list = self.clone();
        list.records[index] = record;
        list
    }

    pub fn with_bad_lengths(&self, random: &mut Random) -> List {
        let (p, q) = bad_lengths(random, self.p, self.q);
        List {
            p,
            q,
            ..self.clone()
        }
    }
}

pub fn input(p: u32, q: u32, records: &[u32], marks: &[u32]) -> Vec<u32> {
    let list = list::List {
        p,
        q,
        records,
        marks,
    };
    list.input()
}

fn record(m: DraftMatch) -> Record {
    [m.left_a, m.left_b, m.length, m.reversed.into()]
}

/// Every other list has no mark.
pub fn good_list(random: &mut Random, count: usize) -> List {
    let (p, q) = (sequence_length(random), sequence_length(random));
    let good_record = |_| record(good_match(random, p, q));
    let records = (0..count).map(good_record).collect();
    let few = random.count_between(1, 6);
    let many = random.count_between(1, 40);
    let marks = random.one_of(&[0, 0, few, many]);
    let marks = (0..marks).map(|_| good_mark_record(random, p, q)).collect();
    List {
        p,
        q,
        records,
        marks,
    }
}

pub fn good_mark_record(random: &mut Random, p: u32, q: u32) -> MarkRecord {
    let mark = good_mark(random, p, q);
    [mark.side.into(), mark.position]
}

/// A record that cannot stand in a list with these p and q.
pub type Fault = fn(&mut Random, u32, u32) -> Record;

pub const FAULTS: [Fault; 4] = [
    |random, p, q| {
        let m = good_match(random, p, q);
        with_bad_direction(random, m)
    },
    |random, p, q| record(match_of_no_letter(random, p, q)),
    |random, p, q| record(match_beyond_a(random, p, q)),
    |random, p, q| record(match_beyond_b(random, p, q)),
];

/// Among the directions above 1 are some that would be 0 or 1 in fewer bits.
fn with_bad_direction(random: &mut Random, m: DraftMatch) -> Record {
    let any = random.between(2, u32::MAX);
    let direction = random.one_of(&[2, 3, 0x100, 0x101, 0x1_0001, 1 << 31, u32::MAX, any]);
    [m.left_a, m.left_b, m.length, direction]
}

/// The lines of the request that the list decides, and the empty list.
pub fn lines_of_101(_: &mut Random) -> Vec<Vec<u32>> {
    let of_ten = |numbers: &[u32]| input(10, 10, numbers, &[]);
    vec![
        of_ten(&[0, 0, 6, 0, 2, 3, 5, 1]),
        input(0, 10, &[1, 2, 3], &[]),
        of_ten(&[1, 2, 3]),
        of_ten(&[0, 0, 0, 2]),
        of_ten(&[0, 0, 6, 0, 1, 0, u32::MAX, 0]),
        of_ten(&[0; 8_196]),
        of_ten(&[]),
    ]
}

/// With no record, a good and a faulty one, and with numbers that form none.
pub fn lengths_at_the_limits(_: &mut Random) -> Vec<Vec<u32>> {
    let behind: [&[u32]; 4] = [&[], &[0, 0, 1, 0], &[0, 0, 0, 2], &[1, 2, 3]];
    let mut lists = Vec::new();
    for p in telling_lengths() {
        for q in telling_lengths() {
            lists.extend(behind.map(|numbers| input(p, q, numbers, &[])));
        }
    }
    lists
}

pub fn record_at_the_limits(_: &mut Random) -> Vec<Vec<u32>> {
    let mut lists = Vec::new();
    for (p, q) in SOME_LENGTHS {
        let values = telling_operands(p, q);
        for &left_a in &values {
            for &left_b in &values {
                for &length in &values {
                    let directed =
                        |direction| input(p, q, &[left_a, left_b, length, direction], &[]);
                    lists.extend([0, 1, 2, u32::MAX].map(directed));
                }
            }
        }
    }
    lists
}

pub fn every_tiny_list(_: &mut Random) -> Vec<Vec<u32>> {
    let records = every_tiny_record();
    let mut lists = vec![input(1, 1, &[], &[])];
    for first in &records {
        let and_a_second = |second: &Record| input(1, 1, &[*first, *second].concat(), &[]);
        lists.extend(records.iter().map(and_a_second));
        lists.push(input(1, 1, first, &[]));
    }
    lists
}

/// Every record of the good numbers in one letter and the first bad ones.
pub fn every_tiny_record() -> Vec<Record> {
    let mut records = Vec::new();
    for left_a in 0..=1 {
        for left_b in 0..=1 {
            for length in 0..=2 {
                records.extend([0, 1, 2].map(|direction| [left_a, left_b, length, direction]));
            }
        }
    }
    records
}

pub fn around_the_most(random: &mut Random) -> Vec<Vec<u32>> {
    let mut lists = Vec::new();
    for _ in 0..6 {
        for count in [MOST_MATCHES - 1, MOST_MATCHES, MOST_MATCHES + 1] {
            let good = good_list(random, count);
            let bad_lengths = good.with_bad_lengths(random);
            for list in [&good, &bad_lengths] {
                lists.push(list.numbers());
                lists.extend((1..=3).map(|others| list.numbers_and(&[0; 3][..others], &[])));
            }
            for fault in FAULTS {
                lists.extend(faulty_at_three_places(random, &good, fault));
            }
        }
    }
    lists
}

/// Counts that would be small ones in 16 bits, and others.
pub fn past_the_most(random: &mut Random) -> Vec<Vec<u32>> {
    let counts = [2_050, 4_096, 16_384, 16_385, 65_536, 65_537];
    let list = |count| good_list(random, count).numbers();
    counts.into_iter().map(list).collect()
}

pub fn few(random: &mut Random) -> Vec<Vec<u32>> {
    (0..200).map(|_| few_records(random).numbers()).collect()
}

pub fn few_records(random: &mut Random) -> List {
    let count = random.count_between(0, 20);
    good_list(random, count)
}

pub fn many(random: &mut Random) -> Vec<Vec<u32>> {
    let mut lists = Vec::new();
    for _ in 0..5 {
        let count = random.count_between(21, MOST_MATCHES);
        lists.push(good_list(random, count).numbers());
    }
    lists
}

/// In the longest sequences.
pub fn telling(random: &mut Random) -> Vec<Vec<u32>> {
    let mut lists = Vec::new();
    for _ in 0..50 {
        let count = random.count_between(1, 20);
        let list = List {
            p: LONGEST,
            q: LONGEST,
            records: (0..count).map(|_| telling_record(random)).collect(),
            marks: (0..count).map(|_| telling_mark(random)).collect(),
        };
        lists.push(list.numbers());
    }
    lists
}

/// Numbers at the ends of one, two and three bytes, the last left ends there are, all letters.
fn telling_record(random: &mut Random) -> Record {
    const TELLING: [u32; 8] = [0, 1, 255, 256, 65_535, 65_536, 16_777_215, 16_777_216];
    let length = random.one_of(&[&TELLING[1..], &[LONGEST]].concat());
    let last = LONGEST - length;
    let [left_a, left_b] = [(); 2].map(|()| {
        let left = random.one_of(&TELLING).min(last);
        random.one_of(&[left, left, last])
    });
    [left_a, left_b, length, random.between(0, 1)]
}

fn telling_mark(random: &mut Random) -> MarkRecord {
    let position = random.one_of(&[0, 1, 255, 256, 65_535, 65_536, 16_777_216, LONGEST]);
    [random.between(0, 1), position]
}

pub fn one_fault(random: &mut Random) -> Vec<Vec<u32>> {
    let mut lists = Vec::new();
    for _ in 0..10 {
        for fault in FAULTS {
            let count = random.count_between(1, 30);
            let good = good_list(random, count);
            lists.extend(faulty_at_three_places(random, &good, fault));
        }
    }
    lists
}

/// The fault in place of the first, of a middle and of the last record.
fn faulty_at_three_places(random: &mut Random, good: &List, fault: Fault) -> [Vec<u32>; 3] {
    let last = good.records.len() - 1;
    let middle = random.count_between(0, last);
    [0, middle, last].map(|index| {
        let record = fault(random, good.p, good.q);
        good.with_record(index, record).numbers()
    })
}

pub fn several_faults(random: &mut Random) -> Vec<Vec<u32>> {
    let mut lists = Vec::new();
    for _ in 0..60 {
        let count = random.count_between(1, 10);
        let good = good_list(random, count);
        let index = random.count_between(0, count - 1);
        let m = match_of_several_faults(random, good.p, good.q);
        for record in [record(m), with_bad_direction(random, m)] {
            lists.push(good.with_record(index, record).numbers());
        }
    }
    lists
}

/// The first one counts, whatever the others are.
pub fn several_faulty(random: &mut Random) -> Vec<Vec<u32>> {
    (0..60).map(|_| faulty_list(random).numbers()).collect()
}

/// Faults in place of up to four records.
pub fn faulty_list(random: &mut Random) -> List {
    let count = random.count_between(2, 20);
    let mut list = good_list(random, count);
    for _ in 0..random.between(2, 4) {
        let fault = random.one_of(&FAULTS);
        let record = fault(random, list.p, list.q);
        list = list.with_record(random.count_between(0, count - 1), record);
    }
    list
}

/// One to three numbers behind good and faulty records, and behind bad p and q.
pub fn no_multiple_of_four(random: &mut Random) -> Vec<Vec<u32>> {
    let mut lists = Vec::new();
    for _ in 0..15 {
        for count in 1..=3 {
            let (good, faulty) = (few_records(random), faulty_list(random));
            let bad = good.with_bad_lengths(random);
            let bad_and_faulty = faulty.with_bad_lengths(random);
            let others = telling_numbers(random, count);
            let with_others = |list: List| list.numbers_and(&others, &[]);
            lists.extend([good, faulty, bad, bad_and_faulty].map(with_others));
        }
    }
    lists
}

/// Before good and faulty records.
pub fn lengths_out_of_range(random: &mut Random) -> Vec<Vec<u32>> {
    let mut lists = Vec::new();
    for _ in 0..30 {
        for list in [few_records(random), faulty_list(random)] {
            lists.push(list.with_bad_lengths(random).numbers());
        }
    }
    lists
}

pub fn noise(random: &mut Random) -> Vec<Vec<u32>> {
    let mut lists = Vec::new();
    for _ in 0..50 {
        for numbers_of in [Random::any_numbers, telling_numbers] {
            let any = [random.any_u32(), random.any_u32()];
            let good = [(); 2].map(|()| sequence_length(random));
            let lengths = random.one_of(&[any, good, good]);
            let counts = [40, 10].map(|most| random.count_between(0, most));
            let [records, marks] = counts.map(|count| numbers_of(random, count));
            lists.push(input(lengths[0], lengths[1], &records, &marks));
        }
    }
    lists
}

/// Small numbers, which often are good in a record, and some others.
pub fn telling_numbers(random: &mut Random, count: usize) -> Vec<u32> {
    let telling = |_| {
        let any = random.any_u32();
        random.one_of(&[0, 0, 1, 1, 2, 3, LONGEST, u32::MAX, any])
    };
    (0..count).map(telling).collect()
}
