//! Refusals: a word and a place.

use crate::word::Word;
use std::error::Error;
use std::fmt;

/// Why a script, a list of matches and marks or a call is refused.
///
/// Its text says the word, the number and the place, and what to do about it:
///
/// ```
/// let refusal = notchergrey::read(b"no script").unwrap_err();
/// assert_eq!(
///     refusal.to_string(),
///     "refused as headless (1) at byte 0: the script is empty or its first byte isn't 4C; hand over the whole \
///      script, which begins with the lengths of A and B"
/// );
/// ```
#[derive(Clone, Copy, Debug, PartialEq, Eq, Hash)]
pub struct Refusal {
    word: Word,
    place: Place,
}

/// Where the fault is.
#[derive(Clone, Copy, Debug, PartialEq, Eq, Hash)]
enum Place {
    /// At this offset in the script.
    Byte(usize),
    /// In this record of the list, counted from 1.
    Record(usize),
    /// In this mark of the list, counted from 1, behind so many matches.
    Mark { number: usize, matches: usize },
    /// In the call.
    Call,
}

impl Refusal {
    /// What the answer of a door that reads a script says: 0 is no refusal.
    pub(crate) fn of_script_unless_zero(number: u32, place: usize) -> Result<(), Refusal> {
        Refusal::unless_zero(number, |word| {
            if word.is_of_scripts() {
                Place::Byte(place)
            } else {
                Place::Call
            }
        })
    }

    /// What the answer of the door that writes a script says of a list with so many matches: 0 is no refusal. The door
    /// counts marks on from the matches.
    pub(crate) fn of_list_unless_zero(
        number: u32,
        place: usize,
        matches: usize,
    ) -> Result<(), Refusal> {
        Refusal::unless_zero(number, |_| match place.checked_sub(matches) {
            _ if place == 0 => Place::Call,
            None | Some(0) => Place::Record(place),
            Some(number) => Place::Mark { number, matches },
        })
    }

    fn unless_zero(number: u32, place_of: impl Fn(Word) -> Place) -> Result<(), Refusal> {
        if number == 0 {
            return Ok(());
        }
        let word = Word::of_number(number).expect("the library refuses by the numbers 1 to 22");
        let place = place_of(word);
        Err(Refusal { word, place })
    }

    /// What is wrong.
    pub fn word(&self) -> Word {
        self.word
    }

    /// The number of the word, 1 to 22.
    pub fn number(&self) -> u32 {
        self.word.number()
    }

    /// Where it is wrong. In a script: the offset of the command refused; the script's length if bytes ran out where a
    /// command was due; the first extra byte of a tail. In a list that is to become a script: the match, counted from
    /// 1, or the mark, counted on from the matches, so that the first mark behind two matches is 3;
    /// [`record`](Refusal::record) and [`mark`](Refusal::mark) tell the two apart. It is 0 where nothing of these is at
    /// fault.
    pub fn place(&self) -> usize {
        match self.place {
            Place::Byte(place) | Place::Record(place) => place,
            Place::Mark { number, matches } => matches + number,
            Place::Call => 0,
        }
    }

    /// The match at fault, counted from 1, if a list is refused for one of its matches.
    pub fn record(&self) -> Option<usize> {
        match self.place {
            Place::Record(record) => Some(record),
            Place::Byte(_) | Place::Mark { .. } | Place::Call => None,
        }
    }

    /// The mark at fault, counted from 1 among the marks, if a list is refused for one of them.
    ///
    /// ```
    /// use notchergrey::{Mark, Side};
    ///
    /// let marks = [10, 11].map(|position| Mark { side: Side::A, position });
    /// let refusal = notchergrey::write(10, 20, &[], &marks).unwrap_err();
    /// assert_eq!((refusal.number(), refusal.mark()), (21, Some(2)));
    /// ```
    pub fn mark(&self) -> Option<usize> {
        match self.place {
            Place::Mark { number, .. } => Some(number),
            Place::Byte(_) | Place::Record(_) | Place::Call => None,
        }
    }
}

impl fmt::Display for Refusal {
    fn fmt(&self, f: &mut fmt::Formatter<'_>) -> fmt::Result {
        let [wrong, remedy] = self.word.advice();
        let (word, number, place) = (self.word, self.number(), self.place);
        write!(f, "refused as {word} ({number}){place}: {wrong}; {remedy}")
    }
}

impl fmt::Display for Place {
    fn fmt(&self, f: &mut fmt::Formatter<'_>) -> fmt::Result {
        match self {
            Place::Byte(offset) => write!(f, " at byte {offset}"),
            Place::Record(number) => write!(f, " at record {number}"),
            Place::Mark { number, .. } => write!(f, " at mark {number}"),
            Place::Call => Ok(()),
        }
    }
}

impl Error for Refusal {}
