//! What the writer takes beside its buffer, and the same as one input of the run.

use crate::draft::{BYTES_OF_A_MARK, BYTES_OF_A_MATCH, BYTES_OF_END, BYTES_OF_LENGTHS};
use crate::slow::records::{NUMBERS_OF_A_MARK, NUMBERS_OF_A_RECORD};

#[derive(Clone, Copy)]
pub struct List<'a> {
    pub p: u32,
    pub q: u32,
    pub records: &'a [u32],
    pub marks: &'a [u32],
}

impl<'a> List<'a> {
    /// p, q, how many numbers the marks are, these, and the numbers of the records.
    pub fn input(&self) -> Vec<u32> {
        let head = [self.p, self.q, self.marks.len() as u32];
        [&head, self.marks, self.records].concat()
    }

    pub fn of_input(input: &'a [u32]) -> List<'a> {
        let (head, numbers) = input.split_at(3);
        let (marks, records) = numbers.split_at(head[2] as usize);
        List {
            p: head[0],
            q: head[1],
            records,
            marks,
        }
    }

    pub fn count(&self) -> usize {
        self.records.len() / NUMBERS_OF_A_RECORD
    }

    pub fn mark_count(&self) -> usize {
        self.marks.len() / NUMBERS_OF_A_MARK
    }

    /// How many bytes the script has.
    pub fn script_length(&self) -> usize {
        let (matches, marks) = (self.count(), self.mark_count());
        BYTES_OF_LENGTHS + BYTES_OF_A_MATCH * matches + BYTES_OF_A_MARK * marks + BYTES_OF_END
    }
}
