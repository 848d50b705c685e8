// The least set of cuts of matches that join tracks, from its definition alone: sets of places, and rounds in which what
// came last is carried over every match that spans it, from either side, until nothing comes. It knows no set of a side,
// no group, no order of the matches and no index.
use std::collections::BTreeSet;

// A position of a track.
#[derive(Clone, Copy, Debug, PartialEq, Eq, PartialOrd, Ord)]
pub struct Place {
    pub track: u8,
    pub position: u32,
}

// What a match has of a track, both ends included.
#[derive(Clone, Copy, Debug)]
pub struct Stretch {
    pub track: u8,
    pub left: u32,
    pub right: u32,
}

impl Stretch {
    pub fn spans(&self, place: Place) -> bool {
        self.track == place.track && (self.left..=self.right).contains(&place.position)
    }

    pub fn ends(&self) -> [Place; 2] {
        [self.left, self.right].map(|position| Place {
            track: self.track,
            position,
        })
    }
}

// The first side and the second, equally long.
#[derive(Clone, Copy, Debug)]
pub struct Match {
    pub sides: [Stretch; 2],
    pub reversed: bool,
}

impl Match {
    // Places are a track and a left end.
    pub fn new(first: (u8, u32), second: (u8, u32), length: u32, reversed: bool) -> Match {
        let sides = [first, second].map(|(track, left)| Stretch {
            track,
            left,
            right: left + length,
        });
        Match { sides, reversed }
    }

    // Where a place that the match spans on a side is on the other.
    fn carry(&self, side: usize, place: Place) -> Place {
        let (from, to) = (self.sides[side], self.sides[1 - side]);
        let inside = place.position - from.left;
        let position = if self.reversed {
            to.right - inside
        } else {
            to.left + inside
        };
        Place {
            track: to.track,
            position,
        }
    }
}

// The cuts that were found, and the rounds that brought some. They are all there are, unless the search was given up.
pub struct Closure {
    pub cuts: BTreeSet<Place>,
    pub rounds: usize,
    pub whole: bool,
}

// The cuts, or those found until there are more than `most`.
pub fn close(matches: &[Match], marks: &[Place], most: usize) -> Closure {
    let mut cuts = ends(matches);
    cuts.extend(marks.iter().filter(|&&mark| is_spanned(matches, mark)));
    let mut new: Vec<Place> = cuts.iter().copied().collect();
    let mut rounds = 0;
    while !new.is_empty() && cuts.len() <= most {
        let images = new.iter().flat_map(|&place| images(matches, place));
        new = images.filter(|&image| cuts.insert(image)).collect();
        rounds += usize::from(!new.is_empty());
    }
    Closure {
        cuts,
        rounds,
        whole: new.is_empty(),
    }
}

// The ends of all matches on both sides.
pub fn ends(matches: &[Match]) -> BTreeSet<Place> {
    let sides = matches.iter().flat_map(|m| m.sides);
    sides.flat_map(|side| side.ends()).collect()
}

pub fn is_spanned(matches: &[Match], place: Place) -> bool {
    let mut sides = matches.iter().flat_map(|m| m.sides);
    sides.any(|side| side.spans(place))
}

// What a place is carried to, once for each match and side that has it.
fn images(matches: &[Match], place: Place) -> impl Iterator<Item = Place> + '_ {
    let spanning = move |m: &Match| [0, 1].map(|side| m.sides[side].spans(place).then_some(side));
    let sides = matches
        .iter()
        .flat_map(move |m| spanning(m).map(|s| (m, s)));
    sides.filter_map(move |(m, side)| Some(m.carry(side?, place)))
}

// The rows of the table with these cuts: the pieces of each match, summed up. Either side has as many.
pub fn rows(matches: &[Match], cuts: &BTreeSet<Place>, side: usize) -> usize {
    let pieces = |m: &Match| within(cuts, m.sides[side]).count() - 1;
    matches.iter().map(pieces).sum()
}

fn within(cuts: &BTreeSet<Place>, stretch: Stretch) -> impl Iterator<Item = u32> + '_ {
    let [left, right] = stretch.ends();
    cuts.range(left..=right).map(|place| place.position)
}

// The cuts of a track that lie on that side of some match, rising.
pub fn on_side(matches: &[Match], cuts: &BTreeSet<Place>, side: usize, track: u8) -> Vec<u32> {
    let stretches = matches.iter().map(|m| m.sides[side]);
    let of_track = stretches.filter(|stretch| stretch.track == track);
    let all: BTreeSet<u32> = of_track.flat_map(|stretch| within(cuts, stretch)).collect();
    all.into_iter().collect()
}
