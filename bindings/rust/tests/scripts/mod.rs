//! Scripts and lists for the tests.

#![allow(dead_code)] // no test needs all of them

use notchergrey::{Mark, Match, Side};

pub const LONG: u32 = 1_000_000_000;

pub fn command(letter: u8, operands: &[u32]) -> Vec<u8> {
    let numbers = operands.iter().flat_map(|number| number.to_le_bytes());
    std::iter::once(letter).chain(numbers).collect()
}

/// A mark, with any byte for its side.
pub fn mark_command(side: u8, position: u32) -> Vec<u8> {
    [&[b'M', side][..], &position.to_le_bytes()].concat()
}

/// An admitted script with these commands behind its own.
pub fn followed_by(script: &[u8], commands: &[Vec<u8>]) -> Vec<u8> {
    let (end, before) = script.split_last().unwrap();
    [before, &commands.concat(), &[*end]].concat()
}

/// Lengths, matches by their letter and operands, end.
pub fn script(p: u32, q: u32, matches: &[(u8, [u32; 3])]) -> Vec<u8> {
    let mut bytes = command(b'L', &[p, q]);
    for (letter, operands) in matches {
        bytes.extend(command(*letter, operands));
    }
    bytes.push(b'E');
    bytes
}

/// Two matches one letter apart are cut into their letters, twice so many rows.
pub fn zigzag(letters: u32) -> Vec<u8> {
    let matches = [(b'D', [0, 0, letters]), (b'D', [0, 1, letters])];
    script(LONG, LONG, &matches)
}

/// Eight rows.
pub fn run_of_the_specification() -> Vec<u8> {
    script(10, 10, &[(b'D', [0, 0, 6]), (b'R', [2, 3, 5])])
}

pub fn many_matches(count: usize) -> Vec<u8> {
    script(LONG, LONG, &vec![(b'D', [0, 0, 1]); count])
}

pub fn direct(left_a: u32, left_b: u32, length: u32) -> Match {
    Match {
        left_a,
        left_b,
        length,
        reversed: false,
    }
}

pub fn reversed(left_a: u32, left_b: u32, length: u32) -> Match {
    Match {
        reversed: true,
        ..direct(left_a, left_b, length)
    }
}

pub fn on_a(position: u32) -> Mark {
    Mark {
        side: Side::A,
        position,
    }
}

pub fn on_b(position: u32) -> Mark {
    Mark {
        side: Side::B,
        position,
    }
}

/// As many matches and marks as a script may have, with the marks behind.
pub fn longest() -> Vec<u8> {
    let marks = vec![mark_command(1, LONG); 512];
    followed_by(&many_matches(2_048), &marks)
}

/// Four numbers for each match.
pub fn records(matches: &[Match]) -> Vec<u32> {
    let record = |one: &Match| [one.left_a, one.left_b, one.length, one.reversed as u32];
    matches.iter().flat_map(record).collect()
}

/// Two numbers for each mark.
pub fn numbers(marks: &[Mark]) -> Vec<u32> {
    let numbers = |mark: &Mark| [(mark.side == Side::B) as u32, mark.position];
    marks.iter().flat_map(numbers).collect()
}

/// Scripts that others made, admitted by the reader.
pub const EXAMPLES: [&[u8]; 8] = [
    include_bytes!("../../../../examples/two-matches.script"),
    include_bytes!("../../../../examples/no-matches.script"),
    include_bytes!("../../../../examples/2048-matches.script"),
    include_bytes!("../../../../examples/3000-pieces.script"),
    include_bytes!("../../../../examples/real/human-orang.script"),
    include_bytes!("../../../../examples/real/human-orang-refused.script"),
    include_bytes!("../../../../examples/real/pylori-b.script"),
    include_bytes!("../../../../examples/real/pylori-e.script"),
];
