//! A refiner written for speed. The ends of all matches part each side into gaps, and each gap has
//! the array of the matches over it, so that no match is asked in vain. The cuts of a side are
//! found one after the other; which ones are known stands in pages of 32 letters.

use super::plain::{refine_with, Match, A, B};
use crate::reader::plain::Mark;
use compare::slow::refusal::Refusal;

/// The same answers as `plain::refine`.
#[inline(never)]
pub fn refine(script: &[u8], table: &mut [u32]) -> Result<usize, Refusal> {
    refine_with(script, table, closed_cuts)
}

fn closed_cuts(matches: &[Match], marks: &[Mark], most_hits: usize) -> Option<Vec<u32>> {
    if matches.is_empty() {
        return Some(Vec::new());
    }
    let mut a = Side::new(matches, A, most_hits)?;
    let mut b = Side::new(matches, B, most_hits)?;
    for &Mark { side, position } in marks {
        [&mut a, &mut b][usize::from(side)].take_mark(position);
    }
    a.carry_ends(&mut b);
    b.carry_ends(&mut a);
    while a.has_to_carry() || b.has_to_carry() {
        a.carry_found(&mut b, most_hits)?;
        b.carry_found(&mut a, most_hits)?;
    }
    Some(a.rising())
}

/// The cuts of one side, and what carries them to the other.
struct Side {
    gaps: Gaps,
    carriers: Vec<Carrier>,
    known: Known,
    /// Cuts that are no ends, as they were found; the first `carried` of them are done.
    found: Vec<u32>,
    carried: usize,
    hits: usize,
}

impl Side {
    /// None if the ends alone have too many hits.
    fn new(matches: &[Match], side: usize, most_hits: usize) -> Option<Side> {
        let turns = Turn::sorted(matches, side);
        let hits = hits_of_ends(&turns);
        if hits > most_hits {
            return None;
        }
        let gaps = Gaps::new(&turns, hits);
        Some(Side {
            carriers: matches.iter().map(|m| Carrier::new(m, side)).collect(),
            known: Known::of(&gaps.ends),
            gaps,
            found: Vec::new(),
            carried: 0,
            hits,
        })
    }

    fn has_to_carry(&self) -> bool {
        self.carried < self.found.len()
    }

    /// A mark over which there is a match is a cut like one that was carried here. Ends are known.
    fn take_mark(&mut self, position: u32) {
        let gap = self.gaps.ends.partition_point(|&end| end <= position);
        let is_spanned = gap > 0 && !self.gaps.over(gap - 1).is_empty();
        if is_spanned && self.known.add(position) {
            self.found.push(position);
        }
    }

    /// A match carries its ends to ends, so those that only end here need not be asked.
    fn carry_ends(&self, to: &mut Side) {
        for (gap, &end) in self.gaps.ends.iter().enumerate() {
            self.carry(end, self.gaps.over(gap), to);
        }
    }

    fn carry_found(&mut self, to: &mut Side, most_hits: usize) -> Option<()> {
        if self.gaps.are_worth_dividing(self.carried) {
            self.gaps.divide();
        }
        while let Some(&cut) = self.found.get(self.carried) {
            self.carried += 1;
            let over = self.gaps.over(self.gaps.with(cut));
            self.hits += over.len();
            if self.hits > most_hits {
                return None;
            }
            self.carry(cut, over, to);
        }
        Some(())
    }

    #[inline(always)]
    fn carry(&self, cut: u32, over: &[u16], to: &mut Side) {
        for &index in over {
            let image = self.carriers[usize::from(index)].carry(cut);
            if to.known.add(image) {
                to.found.push(image);
            }
        }
    }

    fn rising(mut self) -> Vec<u32> {
        if self.found.is_empty() {
            return self.gaps.ends;
        }
        self.known.rising().unwrap_or_else(|| {
            self.found.sort_unstable();
            merged(&self.gaps.ends, &self.found)
        })
    }
}

/// Two rising arrays that share no number.
fn merged(some: &[u32], others: &[u32]) -> Vec<u32> {
    let mut all = Vec::with_capacity(some.len() + others.len());
    let mut rest = others;
    for &number in some {
        let before = rest.iter().take_while(|&&other| other < number).count();
        all.extend_from_slice(&rest[..before]);
        all.push(number);
        rest = &rest[before..];
    }
    all.extend_from_slice(rest);
    all
}

/// Carries by an exclusive or and a sum, without a branch on the direction.
struct Carrier {
    flip: u32,
    add: u32,
}

impl Carrier {
    fn new(m: &Match, from: usize) -> Carrier {
        let (left, image) = (m.left[from], m.left[1 - from]);
        if m.reversed {
            // Minus a cut is one more than the cut with all its bits flipped.
            let sum = left.wrapping_add(image).wrapping_add(m.length);
            Carrier {
                flip: u32::MAX,
                add: sum.wrapping_add(1),
            }
        } else {
            Carrier {
                flip: 0,
                add: image.wrapping_sub(left),
            }
        }
    }

    fn carry(&self, cut: u32) -> u32 {
        (cut ^ self.flip).wrapping_add(self.add)
    }
}

/// Where a match begins or ends on a side. One number, by which they are sorted: the position, then
/// beginnings before ends, then the match.
#[derive(Clone, Copy, PartialEq, Eq, PartialOrd, Ord)]
struct Turn(u64);

const ENDS: u64 = 1 << 15;

impl Turn {
    fn sorted(matches: &[Match], side: usize) -> Vec<Turn> {
        let mut turns = Vec::with_capacity(2 * matches.len());
        for (index, m) in (0..).zip(matches) {
            turns.push(Turn(u64::from(m.left[side]) << 16 | index));
            turns.push(Turn(u64::from(m.right(side)) << 16 | ENDS | index));
        }
        turns.sort_unstable();
        turns
    }

    fn position(self) -> u32 {
        (self.0 >> 16) as u32
    }

    fn ends(self) -> bool {
        self.0 & ENDS != 0
    }

    fn index(self) -> u16 {
        (self.0 & (ENDS - 1)) as u16
    }
}

fn hits_of_ends(turns: &[Turn]) -> usize {
    let (mut open, mut hits) = (0, 0);
    for here in turns.chunk_by(|one, next| one.position() == next.position()) {
        let ending = here.iter().filter(|turn| turn.ends()).count();
        let spanning = open + here.len() - ending;
        hits += spanning;
        open = spanning - ending;
    }
    hits
}

/// So few are searched as fast without blocks.
const FEW_ENDS: usize = 16;

/// The ends of all matches on a side, rising, each once. The matches over the gap between an end
/// and the next one are `matches[starts[gap]..starts[gap + 1]]`.
struct Gaps {
    ends: Vec<u32>,
    starts: Vec<usize>,
    matches: Vec<u16>,
    /// The gap where each block of 2^shift letters begins, counted from the first end. Empty until
    /// they are worth it.
    blocks: Vec<u16>,
    shift: u32,
}

impl Gaps {
    fn new(turns: &[Turn], hits: usize) -> Gaps {
        let mut gaps = Gaps {
            ends: Vec::with_capacity(turns.len()),
            starts: Vec::with_capacity(turns.len() + 1),
            matches: Vec::with_capacity(hits),
            blocks: Vec::new(),
            shift: 0,
        };
        let mut open = Open::none_of(turns.len() / 2);
        for here in turns.chunk_by(|one, next| one.position() == next.position()) {
            for &turn in here {
                open.take(turn);
            }
            gaps.ends.push(here[0].position());
            gaps.starts.push(gaps.matches.len());
            gaps.matches.extend_from_slice(&open.indices);
        }
        gaps.starts.push(gaps.matches.len());
        gaps
    }

    fn are_worth_dividing(&self, searches: usize) -> bool {
        self.blocks.is_empty() && self.ends.len() > FEW_ENDS && searches > self.ends.len()
    }

    /// About as many blocks as there are ends.
    #[cold]
    fn divide(&mut self) {
        let (first, last) = (self.ends[0], self.ends[self.ends.len() - 1]);
        let letters = (last - first) as usize;
        self.shift = (letters / self.ends.len()).max(1).ilog2();
        let mut gap = 0;
        for block in 0..=(letters >> self.shift) + 1 {
            let begin = first as usize + (block << self.shift);
            while gap + 1 < self.ends.len() && self.ends[gap + 1] as usize <= begin {
                gap += 1;
            }
            self.blocks.push(gap as u16);
        }
    }

    /// The gap that has this cut, which is no end.
    #[inline(always)]
    fn with(&self, cut: u32) -> usize {
        if self.blocks.is_empty() {
            return self.ends.partition_point(|&end| end < cut) - 1;
        }
        let block = ((cut - self.ends[0]) >> self.shift) as usize;
        let [begin, end] = [self.blocks[block], self.blocks[block + 1]].map(usize::from);
        if begin == end {
            return begin;
        }
        begin + self.ends[begin + 1..=end].partition_point(|&end| end < cut)
    }

    fn over(&self, gap: usize) -> &[u16] {
        &self.matches[self.starts[gap]..self.starts[gap + 1]]
    }
}

/// The matches that have begun and not ended, in no order, and where each of them stands.
struct Open {
    indices: Vec<u16>,
    places: Vec<u16>,
}

impl Open {
    fn none_of(matches: usize) -> Open {
        Open {
            indices: Vec::with_capacity(matches),
            places: vec![0; matches],
        }
    }

    fn take(&mut self, turn: Turn) {
        let index = turn.index();
        if turn.ends() {
            let place = self.places[usize::from(index)];
            self.indices.swap_remove(usize::from(place));
            if let Some(&moved) = self.indices.get(usize::from(place)) {
                self.places[usize::from(moved)] = place;
            }
        } else {
            self.places[usize::from(index)] = self.indices.len() as u16;
            self.indices.push(index);
        }
    }
}

const LETTERS_OF_A_PAGE: u32 = 32;

/// The cuts among 32 letters: the upper half has the number of the page, the lower half a bit for
/// each cut. A page without any is free.
type Page = u64;

const FREE: Page = 0;

fn number_of(page: Page) -> u32 {
    (page >> 32) as u32
}

/// A set of cuts: pages in an open hash table. As soon as the pages from the lowest cut to the
/// highest are not many more than the table would have, each has its own place, in order.
struct Known {
    lowest: u32,
    span: usize,
    pages: Vec<Page>,
    used: usize,
    factor: u64,
    shift: u32,
}

impl Known {
    /// No cut is below the first or above the last of these.
    fn of(ends: &[u32]) -> Known {
        let lowest = ends[0] / LETTERS_OF_A_PAGE;
        let highest = ends[ends.len() - 1] / LETTERS_OF_A_PAGE;
        let span = (highest - lowest) as usize + 1;
        let mut known = Known::with_room(lowest, span, 3 * ends.len());
        for &end in ends {
            known.add(end);
        }
        known
    }

    fn with_room(lowest: u32, span: usize, pages: usize) -> Known {
        let places = pages.next_power_of_two().max(64);
        let in_order = span <= places;
        Known {
            lowest,
            span,
            pages: vec![FREE; if in_order { span } else { places }],
            used: 0,
            factor: if in_order { 1 } else { 0x9E37_79B9_7F4A_7C15 },
            shift: if in_order { 0 } else { 64 - places.ilog2() },
        }
    }

    fn is_in_order(&self) -> bool {
        self.shift == 0
    }

    /// Says whether the cut is new.
    #[inline(always)]
    fn add(&mut self, cut: u32) -> bool {
        let number = cut / LETTERS_OF_A_PAGE;
        let bit = 1 << (cut % LETTERS_OF_A_PAGE);
        let place = self.place_of(number);
        let page = self.pages[place];
        if page & bit != 0 {
            return false;
        }
        self.pages[place] = page | bit | u64::from(number) << 32;
        if page == FREE && !self.is_in_order() {
            self.used += 1;
            if 2 * self.used > self.pages.len() {
                self.grow();
            }
        }
        true
    }

    /// Where the page stands, or a free place for it.
    #[inline(always)]
    fn place_of(&self, number: u32) -> usize {
        let mixed = u64::from(number - self.lowest).wrapping_mul(self.factor);
        let mut place = (mixed >> self.shift) as usize;
        while self.pages[place] != FREE && number_of(self.pages[place]) != number {
            place += 1;
            if place == self.pages.len() {
                place = 0;
            }
        }
        place
    }

    #[cold]
    fn grow(&mut self) {
        let mut bigger = Known::with_room(self.lowest, self.span, 2 * self.pages.len());
        for &page in self.pages.iter().filter(|&&page| page != FREE) {
            let place = bigger.place_of(number_of(page));
            bigger.pages[place] = page;
        }
        bigger.used = self.used;
        *self = bigger;
    }

    /// All of them, if their pages stand in order.
    fn rising(&self) -> Option<Vec<u32>> {
        if !self.is_in_order() {
            return None;
        }
        let cuts = self.pages.iter().map(|&page| (page as u32).count_ones());
        let mut rising = Vec::with_capacity(cuts.sum::<u32>() as usize);
        for &page in &self.pages {
            let mut rest = page as u32;
            while rest != 0 {
                rising.push(number_of(page) * LETTERS_OF_A_PAGE + rest.trailing_zeros());
                rest &= rest - 1;
            }
        }
        Some(rising)
    }
}
