// Consecutive matches that join the same two tracks, in groups.
use crate::random::Random;
use crate::slow::Match;

#[derive(Clone, Copy, PartialEq)]
pub enum Cutting {
    Single,
    Longest,
    Any,
}

// Three numbers a group: the index of its first match, its first track and its second. Behind the last group stands the
// count of matches.
#[derive(Debug)]
pub struct Groups {
    pub numbers: Vec<usize>,
    pub count: usize,
}

impl Groups {
    // Groups of one match, as long as can be, or of any length: then some have no match, and rubbish may stand behind
    // them all.
    pub fn of(matches: &[Match], cutting: Cutting, sets: usize, random: &mut Random) -> Groups {
        let is_any = cutting == Cutting::Any;
        let mut numbers = Vec::new();
        let mut last = None;
        for (k, m) in matches.iter().enumerate() {
            if is_any && random.between(0, 15) == 0 {
                let tracks = [(); 2].map(|_| random.count_between(0, sets - 1));
                numbers.extend([k, tracks[0], tracks[1]]);
                last = None;
            }
            let tracks = m.sides.map(|side| usize::from(side.track));
            let begins = cutting == Cutting::Single || is_any && random.between(0, 4) == 0;
            if begins || last != Some(tracks) {
                numbers.extend([k, tracks[0], tracks[1]]);
                last = Some(tracks);
            }
        }
        let count = numbers.len() / 3;
        numbers.push(matches.len());
        if is_any {
            numbers.extend((0..random.between(0, 3)).map(|_| random.any_usize()));
        }
        Groups { numbers, count }
    }

    // How many matches each group has.
    pub fn sizes(&self) -> impl Iterator<Item = usize> + '_ {
        let starts = self.numbers[..=3 * self.count].iter().step_by(3);
        let ends = starts.clone().skip(1);
        starts.zip(ends).map(|(start, end)| end - start)
    }

    // Whether some group has the track on that side.
    pub fn name(&self, side: usize, track: usize) -> bool {
        let mut groups = self.numbers[..3 * self.count].chunks_exact(3);
        groups.any(|group| group[1 + side] == track)
    }
}
