//! Lists of positions for the doors that carry such a list, and how many numbers are lent for one.

use crate::positions::other;
use crate::random::Random;
use crate::slow::carrying::Side;
use crate::slow::script::Match;

/// Few positions mostly, and now and then some hundreds.
pub fn any_length(random: &mut Random) -> usize {
    let few = random.count_between(3, 8);
    let more = random.count_between(9, 99);
    let hundreds = random.count_between(100, 900);
    match random.count_between(0, 99) {
        0 => hundreds,
        1..=9 => more,
        _ => few,
    }
}

/// No position, one, and so many: with none off the match, with one, and with several.
pub fn lists(m: &Match, side: Side, length: usize, random: &mut Random) -> Vec<Vec<u32>> {
    let span = Span::of(m, side);
    let middle = random.count_between(1, length - 2);
    let mut lists = vec![
        Vec::new(),
        vec![span.any_on(random)],
        vec![span.any_off(random)],
        span.all_on(length, random),
        span.in_order(length, random),
        span.several_off(length, random),
    ];
    for at in [0, middle, length - 1] {
        lists.push(span.one_off(length, at, random));
    }
    lists
}

/// No position, and so many small or any numbers.
pub fn lists_without_a_match(length: usize, random: &mut Random) -> Vec<Vec<u32>> {
    let most = random.one_of(&[9, u32::MAX]);
    let any = (0..length).map(|_| random.between(0, most));
    vec![Vec::new(), any.collect()]
}

/// Seldom just enough for so many positions.
pub fn another_room(count: usize, random: &mut Random) -> usize {
    let (less, more) = (count.saturating_sub(1), count + 1);
    let any_less = random.count_between(0, less);
    let many_more = 2 * count + random.count_between(0, 50);
    random.one_of(&[less, less, more, more, 0, any_less, many_more])
}

/// The ends of a match on the side of a list, and on the other one.
struct Span {
    left: u32,
    right: u32,
    other_left: u32,
    other_right: u32,
}

impl Span {
    fn of(m: &Match, side: Side) -> Span {
        let (left, right) = m.span(side).into_inner();
        let (other_left, other_right) = m.span(other(side)).into_inner();
        Span {
            left: left as u32,
            right: right as u32,
            other_left: other_left as u32,
            other_right: other_right as u32,
        }
    }

    /// At the ends, beside them and between.
    fn any_on(&self, random: &mut Random) -> u32 {
        let Span { left, right, .. } = *self;
        let between = random.between(left, right);
        random.one_of(&[left, left + 1, right - 1, right, between, between])
    }

    /// Beside the ends, on the match on the other side, at the ends of 32 bits, and anywhere.
    fn any_off(&self, random: &mut Random) -> u32 {
        let between = random.between(self.other_left, self.other_right);
        let mut choices = vec![self.left.wrapping_sub(1), self.right + 1];
        choices.extend([self.other_left, self.other_right, between]);
        choices.extend([0, u32::MAX, random.any_u32()]);
        choices.retain(|position| !(self.left..=self.right).contains(position));
        random.one_of(&choices)
    }

    fn all_on(&self, length: usize, random: &mut Random) -> Vec<u32> {
        (0..length).map(|_| self.any_on(random)).collect()
    }

    /// At most so many, from the left end on or back from the right end.
    fn in_order(&self, length: usize, random: &mut Random) -> Vec<u32> {
        let positions = self.left..=self.right;
        if random.any_bool() {
            positions.take(length).collect()
        } else {
            positions.rev().take(length).collect()
        }
    }

    fn one_off(&self, length: usize, at: usize, random: &mut Random) -> Vec<u32> {
        let mut positions = self.all_on(length, random);
        positions[at] = self.any_off(random);
        positions
    }

    fn several_off(&self, length: usize, random: &mut Random) -> Vec<u32> {
        let mut positions = self.all_on(length, random);
        for _ in 0..random.count_between(2, 5) {
            let at = random.count_between(0, length - 1);
            positions[at] = self.any_off(random);
        }
        positions
    }
}
