// Random scripts: matches that join tracks, and marks.
use crate::field::Field;
use crate::marks;
use crate::random::Random;
use crate::slow::{Match, Place};

#[derive(Debug)]
pub struct Script {
    pub tracks: usize,
    pub matches: Vec<Match>,
    pub marks: Vec<Place>,
}

fn noise(random: &mut Random, most: usize) -> (Field, Vec<Match>) {
    let span = random.one_of(&[2, 5, 12, 40, 200, 3_000]);
    let field = Field::any(random, span);
    let longest = span / random.one_of(&[1, 2, 6, 30]);
    let count = random.count_between(0, most);
    let matches = (0..count)
        .map(|_| field.anywhere(random, longest))
        .collect();
    (field, matches)
}

// A cut goes round over some tracks, or up and down between two, and is a little further on each time.
fn turning(random: &mut Random, longest: u32) -> (Field, Vec<Match>) {
    let letters = random.between(20, longest);
    let shift = random.one_of(&[1, 1, 2, 3, 7]);
    let field = Field::any(random, letters + shift);
    let mut around: Vec<u8> = (0..field.tracks as u8).collect();
    random.shuffle(&mut around);
    around.truncate(random.count_between(1, 4));
    let reversed = random.between(0, 3) == 0;
    let mut matches = Vec::new();
    let last = around.len() - 1;
    for (k, &track) in around.iter().enumerate() {
        let shift = if k == last { shift } else { 0 };
        let next = around[(k + 1) % around.len()];
        let [mut first, mut second] = [(track, field.base), (next, field.base + shift)];
        if random.between(0, 3) == 0 {
            (first, second) = (second, first);
        }
        matches.push(Match::new(first, second, letters, reversed));
    }
    if reversed || around.len() == 2 {
        let back = [around[0], around[last]].map(|track| (track, field.base));
        matches.push(Match::new(back[0], back[1], letters, reversed));
    }
    (field, matches)
}

// Long matches of one track, and many short ones, most of them of that track: it has nearly all cuts.
fn comb(random: &mut Random, most: usize) -> (Field, Vec<Match>) {
    let span = random.one_of(&[300, 5_000, 1_000_000]);
    let field = Field::any(random, span);
    let either = field.pair(random);
    let track = random.one_of(&either);
    let mut matches = Vec::new();
    for _ in 0..random.count_between(1, 3) {
        let other = random.one_of(&field.second);
        let tracks = random.one_of(&[[track, other], [other, track]]);
        matches.push(field.join(random, tracks, span));
    }
    for _ in 0..random.count_between(0, most) {
        let [first, second] = field.pair(random);
        let tracks = random.one_of(&[
            [track, second],
            [track, second],
            [first, track],
            [first, second],
        ]);
        let length = random.between(1, 1 + span / 300);
        matches.push(field.join(random, tracks, length));
    }
    (field, matches)
}

// Matches side by side, of few letters and of few cuts.
fn tiles(random: &mut Random, most: usize) -> (Field, Vec<Match>) {
    let count = random.count_between(1, most);
    let length = random.one_of(&[1, 2, 10, 1_000]);
    let field = Field::any(random, count as u32 * length);
    let tracks = field.pair(random);
    let apart = random.between(0, 3) == 0;
    let mut matches = Vec::new();
    for k in 0..count as u32 {
        let [first, second] = if apart { field.pair(random) } else { tracks };
        let left = field.base + k * length;
        matches.push(Match::new(
            (first, left),
            (second, left),
            length,
            random.any_bool(),
        ));
    }
    (field, matches)
}

// More matches up to some count: ones that are there already, the same the other way round, or, in some scripts, of a few
// letters anywhere. Those make many cuts at once, and so fewer turns.
fn pad(random: &mut Random, field: &Field, matches: &mut Vec<Match>) {
    let kinds = random.one_of(&[1, 1, 3]);
    for _ in matches.len()..random.count_between(33, 80) {
        let old = random.one_of(matches);
        let [first, second] = old.sides;
        matches.push(match random.between(0, kinds) {
            0 => old,
            1 => Match {
                sides: [second, first],
                ..old
            },
            _ => field.anywhere(random, 3),
        });
    }
}

impl Script {
    pub fn any(random: &mut Random, number: usize) -> Script {
        let (field, mut matches) = match number % 32 {
            0..=9 => noise(random, 6),
            10..=14 => noise(random, 20),
            15 => noise(random, 100),
            16..=21 => turning(random, 100),
            22..=23 => turning(random, 1_500),
            24..=26 => comb(random, 20),
            27 => comb(random, 300),
            28..=29 => tiles(random, 100),
            30 => tiles(random, 600),
            _ if number % 1024 == 31 => turning(random, 20_000),
            _ => tiles(random, 20),
        };
        if (16..=23).contains(&(number % 32)) && random.between(0, 3) > 0 {
            pad(random, &field, &mut matches);
        }
        match random.between(0, 3) {
            0 => random.shuffle(&mut matches),
            1 => matches.sort_by_key(|m| m.sides.map(|side| side.track)),
            2 => matches.reverse(),
            _ => (),
        }
        let most = random.one_of(&[0, 1, 3, 10, 10, 60]);
        let most = if number % 64 == 24 { 2_000 } else { most };
        let count = random.count_between(most / 2, most);
        let marks = marks::any(random, &field, &matches, count);
        Script {
            tracks: field.tracks,
            matches,
            marks,
        }
    }

    // Whether some match has the track on that side.
    pub fn has(&self, side: usize, track: u8) -> bool {
        self.matches.iter().any(|m| m.sides[side].track == track)
    }
}
