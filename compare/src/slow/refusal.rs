//! 01, "Refused scripts and calls": the words of its table with their numbers, those that the
//! requests of 02 add, and a refusal at its place.

use std::fmt;

/// A row of 01's table, by its word; from 15 on what 02 adds.
#[derive(Clone, Copy, Debug, PartialEq, Eq)]
pub enum Word {
    Headless = 1,
    UnknownCommand = 2,
    CutShort = 3,
    SecondLengths = 4,
    LengthOutOfRange = 5,
    TooManyMatches = 6,
    EmptyMatch = 7,
    BeyondA = 8,
    BeyondB = 9,
    Tail = 10,
    WorkTooShort = 11,
    TooManyPieces = 12,
    NoSuchMatch = 13,
    OffTheMatch = 14,
    MalformedRecords = 15,
    BufferTooShort = 16,
    PriceTooHigh = 17,
    ChainTooShort = 18,
    TooManyMarks = 19,
    NoSuchSide = 20,
    MarkBeyond = 21,
    CountsDiffer = 22,
}

/// "A refusal returns its number and a place."
#[derive(Clone, Copy, Debug, PartialEq, Eq)]
pub struct Refusal {
    pub word: Word,
    pub place: usize,
}

impl Refusal {
    pub fn number(self) -> u32 {
        self.word as u32
    }

    /// 0 for a success, else the refusal's number.
    pub fn number_in<T>(answer: &Result<T, Refusal>) -> u32 {
        answer.as_ref().err().map_or(0, |refusal| refusal.number())
    }

    /// One that is found at no command, at no record and at no mark: its place is 0.
    pub fn of_the_call(word: Word) -> Refusal {
        Refusal { word, place: 0 }
    }
}

impl fmt::Display for Refusal {
    /// "A refusal prints one line: `refused`, the number and the place."
    fn fmt(&self, f: &mut fmt::Formatter<'_>) -> fmt::Result {
        write!(f, "refused {} {}", self.number(), self.place)
    }
}
