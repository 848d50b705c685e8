// One call of the engine, and what it has to answer and to leave.
use crate::door::{self, Columns, Lent};
use crate::draw::Script;
use crate::groups::{Cutting, Groups};
use crate::random::Random;
use crate::slow::{self, Closure, Match};

// The cuts of each track on each side, rising, and the rows of the table. If not all cuts were found, there are more.
pub struct Wanted {
    pub sets: [Vec<Vec<u32>>; 2],
    pub rows: usize,
    pub whole: bool,
}

impl Wanted {
    pub fn of(script: &Script, closure: &Closure) -> Wanted {
        let (matches, cuts) = (&script.matches, &closure.cuts);
        let set = |side, track| slow::on_side(matches, cuts, side, track);
        let sets = [0, 1].map(|side| {
            (0..script.tracks as u8)
                .map(|track| set(side, track))
                .collect()
        });
        let of_sides = [0, 1].map(|side| slow::rows(matches, cuts, side));
        assert!(
            !closure.whole || of_sides[0] == of_sides[1],
            "a match has as many pieces on either side"
        );
        let rows = of_sides[0].max(of_sides[1]);
        Wanted {
            sets,
            rows,
            whole: closure.whole,
        }
    }
}

// What is lent beside the script.
#[derive(Debug)]
pub struct Call {
    pub capacity: usize,
    pub groups: Groups,
    pub indexes: [usize; 2],
    pub more_work: usize,
}

// The room that an index of so many matches needs.
pub fn index_room(matches: usize) -> usize {
    3 * matches + matches / 8
}

impl Call {
    pub fn any(random: &mut Random, script: &Script, capacity: usize) -> Call {
        let cutting = random.one_of(&[
            Cutting::Single,
            Cutting::Longest,
            Cutting::Longest,
            Cutting::Any,
        ]);
        let groups = Groups::of(&script.matches, cutting, script.tracks, random);
        let enough = index_room(script.matches.len());
        let some = random.count_between(0, enough);
        let short = random.one_of(&[0, 0, some, enough.saturating_sub(1)]);
        let room = random.one_of(&[enough, enough, enough + 5]);
        let indexes = random.one_of(&[
            [room; 2],
            [room; 2],
            [short; 2],
            [room, short],
            [short, room],
        ]);
        let some = random.count_between(1, 9);
        let more_work = random.one_of(&[0, 0, 1, some]);
        Call {
            capacity,
            groups,
            indexes,
            more_work,
        }
    }

    // The parts of a side's half that its sets have at first: equal shares of those that are named there.
    fn shares(&self, side: usize, sets: usize) -> Vec<[usize; 2]> {
        let [mut at, end] = half(side, self.capacity);
        let mut left = (0..sets)
            .filter(|&track| self.groups.name(side, track))
            .count();
        let mut shares = Vec::new();
        for track in 0..sets {
            let base = at;
            if self.groups.name(side, track) {
                at += (end - at) / left;
                left -= 1;
            }
            shares.push([base, at]);
        }
        shares
    }
}

// The places of a side's sets.
fn half(side: usize, capacity: usize) -> [usize; 2] {
    [2 * side * capacity, 2 * (side + 1) * capacity]
}

// The columns of a script as the door has them.
pub fn columns(script: &Script) -> Columns {
    let matches = &script.matches;
    let ends = |end: fn(&Match) -> u32| matches.iter().map(end).collect();
    Columns {
        left_a: ends(|m| m.sides[0].left),
        right_a: ends(|m| m.sides[0].right),
        left_b: ends(|m| m.sides[1].left),
        right_b: ends(|m| m.sides[1].right),
        reversed: matches.iter().map(|m| m.reversed).collect(),
        straight: vec![false; matches.len()],
        mark_tracks: script.marks.iter().map(|mark| mark.track).collect(),
        mark_positions: script.marks.iter().map(|mark| mark.position).collect(),
    }
}

// What came of a call: the answer, and of how many sets the part is not the one that they had at first, and had to be
// another.
pub struct Outcome {
    pub all: bool,
    pub slid: usize,
    pub outgrown: usize,
}

// Calls the engine, with rubbish in all that is lent. The error says what differs.
pub fn run(
    random: &mut Random,
    columns: &Columns,
    call: &Call,
    wanted: &Wanted,
) -> Result<Outcome, String> {
    let (capacity, sets) = (call.capacity, wanted.sets[0].len());
    let old = random.any_numbers(4 * capacity + call.more_work);
    let mut lent = Lent {
        index: call.indexes.map(|room| random.any_numbers(room)),
        work: old.clone(),
        books: [0, 1].map(|_| (0..8 * sets).map(|_| random.any_usize()).collect()),
    };
    let groups = &call.groups;
    let all = door::close(
        columns,
        &groups.numbers,
        groups.count,
        &mut lent,
        sets,
        capacity,
    );
    if all != (wanted.whole && wanted.rows <= capacity) {
        return Err(format!(
            "the answer is {all}, and there are {} rows",
            wanted.rows
        ));
    }
    if lent.work[4 * capacity..] != old[4 * capacity..] {
        return Err("a number behind the places of the sets was altered".to_string());
    }
    let mut outcome = Outcome {
        all,
        slid: 0,
        outgrown: 0,
    };
    for side in 0..if all { 2 } else { 0 } {
        see_sets(&lent, side, capacity, &wanted.sets[side])?;
        let shares = call.shares(side, sets).into_iter();
        for ((share, book), set) in shares
            .zip(lent.books[side].chunks_exact(8))
            .zip(&wanted.sets[side])
        {
            outcome.slid += usize::from(share != [book[0], book[7]]);
            outcome.outgrown += usize::from(set.len() > share[1] - share[0]);
        }
    }
    Ok(outcome)
}

// The sets of a side are in its half, one behind the other, and each has its cuts once.
fn see_sets(lent: &Lent, side: usize, capacity: usize, wanted: &[Vec<u32>]) -> Result<(), String> {
    let [mut end, last] = half(side, capacity);
    for (track, (book, cuts)) in lent.books[side].chunks_exact(8).zip(wanted).enumerate() {
        let of = format!("of the set of track {track} on side {side}");
        if book[0] < end || !book.is_sorted() || last < book[7] {
            return Err(format!(
                "the places {of} are {book:?}, from {end} to {last}"
            ));
        }
        end = book[7];
        let mut held = lent.work[book[0]..book[5]].to_vec();
        held.sort();
        if &held != cuts {
            return Err(format!("the cuts {of} are {held:?}, and not {cuts:?}"));
        }
    }
    Ok(())
}
