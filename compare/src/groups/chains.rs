//! Scripts whose direct pieces compete for the best chain.

use super::good::good_match;
use super::shapes::{script, scripts};
use crate::draft::{Draft, DraftMatch};
use crate::random::Random;

/// The lines worked out for 02, #104: ties, a link that gains nothing, numbers that fall.
pub fn lines_of_104(_: &mut Random) -> Vec<Vec<u8>> {
    let direct = |letters, matches: &[(u32, u32, u32)]| {
        let draft = Draft::lengths(letters, letters);
        let all = matches
            .iter()
            .fold(draft, |draft, &(a, b, d)| draft.direct(a, b, d));
        all.end()
    };
    vec![
        Draft::lengths(10, 10)
            .direct(0, 0, 6)
            .reversed(2, 3, 5)
            .end(),
        direct(
            30,
            &[(0, 6, 2), (6, 0, 2), (9, 3, 2), (3, 9, 2), (20, 20, 2)],
        ),
        direct(20, &[(0, 0, 3), (4, 5, 3)]),
        direct(20, &[(10, 10, 3), (0, 0, 3)]),
        direct(40, &[(0, 0, 2), (20, 20, 2), (4, 10, 3), (10, 4, 3)]),
        direct(20, &[(0, 0, 3), (4, 5, 4), (0, 0, 3)]),
        direct(20, &[(0, 0, 3), (3, 3, 3), (3, 4, 3)]),
        Draft::lengths(20, 20)
            .reversed(0, 0, 3)
            .reversed(9, 9, 3)
            .end(),
        direct(1_000_000_000, &[(0, 0, 1), (999_999_999, 999_999_999, 1)]),
        direct(1_000_000_000, &[(0, 0, 1_000_000_000)]),
        direct(
            1_000_000_000,
            &[(0, 999_999_000, 1_000), (999_999_000, 0, 1_000)],
        ),
    ]
}

pub fn few_letters(random: &mut Random) -> Vec<Vec<u8>> {
    scripts(random, |random| {
        let letters = random.between(4, 16);
        let count = random.between(2, 7);
        (0..count)
            .map(|_| mostly_direct(random, letters, 4))
            .collect()
    })
}

/// Equally long matches on a grid, so that many chains score alike.
pub fn on_a_grid(random: &mut Random) -> Vec<Vec<u8>> {
    scripts(random, |random| {
        let (length, gap) = (random.between(1, 3), random.between(0, 3));
        let count = random.between(2, 9);
        let at = |random: &mut Random| random.between(0, 4) * (length + gap);
        (0..count)
            .map(|_| DraftMatch {
                left_a: at(random),
                left_b: at(random),
                length,
                reversed: random.between(0, 7) == 0,
            })
            .collect()
    })
}

/// The letters skipped before a match cost as much as it is long at a price of 1, 2 or 3, or one
/// letter more or less is skipped: the link gains nothing, or hardly anything. Listed in any order.
pub fn hardly_worth_it(random: &mut Random) -> Vec<Vec<u8>> {
    let several = (0..4).flat_map(|_| scripts(random, hardly_worth_linking));
    several.collect()
}

fn hardly_worth_linking(random: &mut Random) -> Vec<DraftMatch> {
    let price = random.between(1, 3);
    let (mut a, mut b) = (0, 0);
    let mut matches = Vec::new();
    for _ in 0..random.between(2, 6) {
        let worth = random.between(1, 4);
        let skipped = random.one_of(&[worth - 1, worth, worth, worth, worth + 1]);
        let on_a = random.between(0, skipped);
        a += on_a;
        b += skipped - on_a;
        let length = price * worth;
        matches.push(DraftMatch::direct(a, b, length));
        a += length;
        b += length;
    }
    random.shuffle(&mut matches);
    matches
}

/// More direct pieces than all chains can be gone through for.
pub fn many_pieces(random: &mut Random) -> Vec<Vec<u8>> {
    (0..12)
        .map(|_| {
            let letters = random.between(40, 400);
            let count = random.between(15, 60);
            let matches: Vec<_> = (0..count)
                .map(|_| mostly_direct(random, letters, 6))
                .collect();
            script(&matches)
        })
        .collect()
}

pub fn a_few(random: &mut Random) -> Vec<Vec<u8>> {
    (0..25)
        .map(|_| {
            let count = random.between(0, 3);
            let matches: Vec<_> = (0..count).map(|_| mostly_direct(random, 8, 3)).collect();
            script(&matches)
        })
        .collect()
}

/// Three of four are direct.
fn mostly_direct(random: &mut Random, letters: u32, longest: u32) -> DraftMatch {
    let any = good_match(random, letters, letters);
    let length = any.length.min(random.between(1, longest));
    DraftMatch {
        length,
        reversed: any.reversed && random.any_bool(),
        ..any
    }
}
