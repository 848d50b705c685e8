// The tracks and positions that a random script may name.
use crate::random::Random;
use crate::slow::Match;

// The tracks that a match may have first and second, and the positions that it may have: from `base`, `span` letters.
pub struct Field {
    pub tracks: usize,
    pub first: Vec<u8>,
    pub second: Vec<u8>,
    pub base: u32,
    pub span: u32,
}

impl Field {
    // Tracks may be first alone, second alone, both, or neither.
    pub fn any(random: &mut Random, span: u32) -> Field {
        let tracks = match random.between(0, 5) {
            0 => 1,
            1 => 16,
            2 => 2,
            _ => random.count_between(1, 16),
        };
        let all = 0..tracks as u8;
        let kind = random.between(0, 3);
        let roles: Vec<u32> = all
            .clone()
            .map(|track| match kind {
                0 => 3,
                1 => 1 + u32::from(track) % 2,
                _ => random.between(0, 3),
            })
            .collect();
        let of = |role: u32, random: &mut Random| {
            let those: Vec<u8> = all
                .clone()
                .filter(|&t| roles[usize::from(t)] & role > 0)
                .collect();
            if those.is_empty() {
                vec![random.count_between(0, tracks - 1) as u8]
            } else {
                those
            }
        };
        let first = of(1, random);
        let second = of(2, random);
        let base = random.one_of(&[0, 0, 0, 1, 1_000_000, u32::MAX - span]);
        Field {
            tracks,
            first,
            second,
            base,
            span,
        }
    }

    pub fn pair(&self, random: &mut Random) -> [u8; 2] {
        let first = random.one_of(&self.first);
        let second = random.one_of(&self.second);
        if random.between(0, 5) == 0 {
            [first; 2]
        } else {
            [first, second]
        }
    }

    pub fn any_track(&self, random: &mut Random) -> u8 {
        random.count_between(0, self.tracks - 1) as u8
    }

    // A match of so many letters.
    pub fn join(&self, random: &mut Random, tracks: [u8; 2], length: u32) -> Match {
        let [first, second] =
            tracks.map(|track| (track, self.base + random.between(0, self.span - length)));
        Match::new(first, second, length, random.any_bool())
    }

    pub fn anywhere(&self, random: &mut Random, longest: u32) -> Match {
        let tracks = self.pair(random);
        let length = random.between(1, longest.clamp(1, self.span));
        self.join(random, tracks, length)
    }
}
