//! The words of the refusals, one table with the number, the text and the advice of each.

use std::fmt;

/// Makes [`Word`] of the table, and what is said of each word.
macro_rules! words {
    ($($(#[$doc:meta])* $word:ident = $number:literal, $name:literal: $wrong:literal, $remedy:literal;)*) => {
        /// The word of a refusal.
        ///
        /// ```
        /// use notchergrey::Word;
        ///
        /// assert_eq!(Word::BeyondA.number(), 8);
        /// assert_eq!(Word::BeyondA.to_string(), "beyond A");
        /// ```
        #[derive(Clone, Copy, Debug, PartialEq, Eq, Hash)]
        #[non_exhaustive]
        pub enum Word {
            $($(#[$doc])* $word = $number,)*
        }

        impl Word {
            /// All words, by their number.
            pub const ALL: &'static [Word] = &[$(Word::$word,)*];

            fn name(self) -> &'static str {
                match self {
                    $(Word::$word => $name,)*
                }
            }

            /// What is wrong, and what to do about it.
            pub(crate) fn advice(self) -> [&'static str; 2] {
                match self {
                    $(Word::$word => [$wrong, $remedy],)*
                }
            }
        }
    };
}

words! {
    /// The script is empty, or its first byte isn't 4C.
    Headless = 1, "headless":
        "the script is empty or its first byte isn't 4C",
        "hand over the whole script, which begins with the lengths of A and B";
    /// A later command byte isn't 4C, 44, 52, 4D or 45.
    UnknownCommand = 2, "unknown command":
        "no command has this byte",
        "check that the command before it has all its operands, one byte for the side of a mark and four for \
         every other, and no more";
    /// Operands are incomplete, or bytes run out before 45.
    CutShort = 3, "cut short":
        "the bytes run out before the end command, 45",
        "hand over the whole script, and write its end";
    /// 4C comes again.
    SecondLengths = 4, "second lengths":
        "the lengths command, 4C, comes again",
        "give the lengths once, first of all, and write a script for each pair of sequences";
    /// p or q is 0 or above 1,000,000,000.
    LengthOutOfRange = 5, "length out of range":
        "a sequence has no letter or more than 1,000,000,000",
        "check the two lengths, and split a sequence that is longer";
    /// There is a match 2,049.
    TooManyMatches = 6, "too many matches":
        "there are more than 2,048 matches",
        "leave out short ones, or write a script for each group of matches that overlaps with no other group";
    /// A match has length 0.
    EmptyMatch = 7, "empty match":
        "this match has no letter",
        "leave it out, or give its length in letters";
    /// Left-A + length is above p.
    BeyondA = 8, "beyond A":
        "this match ends behind the last letter of A",
        "check its left-A, which is counted from 0, its length, and the length of A";
    /// Left-B + length is above q.
    BeyondB = 9, "beyond B":
        "this match ends behind the last letter of B",
        "check its left-B, which is counted from 0 and is the lower end also where it is reversed, its \
         length, and the length of B";
    /// Bytes follow after 45.
    Tail = 10, "tail":
        "bytes follow after the end command, 45",
        "hand over one script alone";
    /// The work buffer has under four numbers for each row of the table.
    WorkTooShort = 11, "work too short":
        "the work buffer has under four numbers for each row of the table",
        "lend a longer work buffer or a shorter table";
    /// Every resolved refinement has more pieces than the table has rows.
    TooManyPieces = 12, "too many pieces":
        "every table of this script has more rows than there is room for",
        "make room for more rows, or leave out marks, or matches that overlap many others";
    /// The match number is 0 or above the count of matches.
    NoSuchMatch = 13, "no such match":
        "the script has no match of this number",
        "count its matches from 1, in the order of the script";
    /// The position, or one of many, is outside the match on its side.
    OffTheMatch = 14, "off the match":
        "the match does not span the position on this side, or does not span each one of many",
        "give positions from its left end there to its right end, both included, and leave out the others";
    /// The numbers of the matches are no multiple of four, those of the marks are odd, or a direction is above 1.
    MalformedRecords = 15, "malformed records":
        "the numbers of the matches are no multiple of four, those of the marks are odd, or a direction is neither 0 \
         nor 1",
        "give four numbers for each match, which are left-A, left-B, length, and 0 if it is direct or 1 if it is \
         reversed, and two for each mark, side and position";
    /// A lent buffer is too short for what is to be written to it.
    BufferTooShort = 16, "buffer too short":
        "the script, the records or the marks do not fit into the lent buffer",
        "lend 10 bytes, 13 more for each match and 6 more for each mark to a script, four numbers for each match to \
         records, and two for each mark to marks";
    /// The gap price is above 1,000.
    PriceTooHigh = 17, "price too high":
        "the gap price is above 1,000",
        "give a price from 0 to 1,000 for each letter that a chain skips";
    /// The chain or score buffer has fewer numbers than the table has rows, or the rows have no 32-bit numbers.
    ChainTooShort = 18, "chain too short":
        "the chain or score buffer has no number for each row that the table has room for",
        "lend one number for each row to either, and a table of at most 4,294,967,295 rows";
    /// There is a mark 513.
    TooManyMarks = 19, "too many marks":
        "there are more than 512 marks",
        "leave out those that no match spans and those that stand twice, which change nothing, or write a script for \
         each group of matches that overlaps with no other group, with the marks that it spans";
    /// The side of a mark is above 1.
    NoSuchSide = 20, "no such side":
        "the side of this mark is neither 0 nor 1",
        "give 0 for a position of A and 1 for a position of B";
    /// The position of a mark is above p on A, or above q on B.
    MarkBeyond = 21, "mark beyond":
        "this mark lies behind the last letter of its side",
        "check its position, which is counted from 0, its side, and the length of that sequence";
    /// The positions and the numbers lent for them are not equally many.
    CountsDiffer = 22, "counts differ":
        "the positions and the numbers lent for them are not equally many",
        "lend a buffer that is just as long as the list of positions";
}

impl Word {
    /// The number that the specification gives it, 1 to 22.
    pub fn number(self) -> u32 {
        self as u32
    }

    /// The word that has this number.
    pub(crate) fn of_number(number: u32) -> Option<Word> {
        Word::ALL
            .iter()
            .copied()
            .find(|word| word.number() == number)
    }

    /// The refusals that are found in a script's bytes, and so at a place.
    pub(crate) fn is_of_scripts(self) -> bool {
        let of_marks = [Word::TooManyMarks, Word::NoSuchSide, Word::MarkBeyond];
        self.number() <= Word::Tail.number() || of_marks.contains(&self)
    }
}

impl fmt::Display for Word {
    fn fmt(&self, f: &mut fmt::Formatter<'_>) -> fmt::Result {
        f.write_str(self.name())
    }
}
