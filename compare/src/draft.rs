//! Scripts written command by command, good or bad: nothing here tests a number.

use crate::slow::script::{DIRECT, END, LENGTHS, MARK, REVERSED};

/// A command byte and its operands.
pub const BYTES_OF_LENGTHS: usize = 1 + 2 * 4;
pub const BYTES_OF_A_MATCH: usize = 1 + 3 * 4;
pub const BYTES_OF_A_MARK: usize = 1 + 1 + 4;
pub const BYTES_OF_END: usize = 1;

/// The operands and the direction of a match.
#[derive(Clone, Copy, Debug)]
pub struct DraftMatch {
    pub left_a: u32,
    pub left_b: u32,
    pub length: u32,
    pub reversed: bool,
}

impl DraftMatch {
    pub fn direct(left_a: u32, left_b: u32, length: u32) -> DraftMatch {
        DraftMatch {
            left_a,
            left_b,
            length,
            reversed: false,
        }
    }
}

/// The operands of a mark.
#[derive(Clone, Copy, Debug, PartialEq, Eq)]
pub struct DraftMark {
    pub side: u8,
    pub position: u32,
}

/// The bytes of a script that is still being written.
#[derive(Clone, Debug)]
pub struct Draft {
    bytes: Vec<u8>,
}

impl Draft {
    pub fn lengths(p: u32, q: u32) -> Draft {
        Draft { bytes: Vec::new() }.command(LENGTHS, &[p, q])
    }

    pub fn direct(self, left_a: u32, left_b: u32, length: u32) -> Draft {
        self.command(DIRECT, &[left_a, left_b, length])
    }

    pub fn reversed(self, left_a: u32, left_b: u32, length: u32) -> Draft {
        self.command(REVERSED, &[left_a, left_b, length])
    }

    pub fn matching(self, m: DraftMatch) -> Draft {
        let byte = if m.reversed { REVERSED } else { DIRECT };
        self.command(byte, &[m.left_a, m.left_b, m.length])
    }

    pub fn mark(self, side: u8, position: u32) -> Draft {
        let bytes = position.to_le_bytes();
        self.bytes(&[MARK, side]).bytes(&bytes)
    }

    pub fn marking(self, mark: DraftMark) -> Draft {
        self.mark(mark.side, mark.position)
    }

    /// A command byte with as many operands as are given.
    pub fn command(mut self, byte: u8, operands: &[u32]) -> Draft {
        self.bytes.push(byte);
        for operand in operands {
            self.bytes.extend(operand.to_le_bytes());
        }
        self
    }

    pub fn bytes(mut self, more: &[u8]) -> Draft {
        self.bytes.extend(more);
        self
    }

    pub fn end(self) -> Vec<u8> {
        self.command(END, &[]).without_end()
    }

    pub fn without_end(self) -> Vec<u8> {
        self.bytes
    }
}
