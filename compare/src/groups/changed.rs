//! Good scripts of a few matches, each spoilt in one place.

use super::good;
use crate::random::Random;
use crate::slow::script::{DIRECT, END, LENGTHS, MARK, REVERSED};

pub fn cut_short(random: &mut Random) -> Vec<Vec<u8>> {
    let mut scripts = Vec::new();
    for _ in 0..4 {
        let good = few_matches(random);
        for length in 0..good.len() {
            scripts.push(good[..length].to_vec());
        }
    }
    scripts
}

pub fn byte_changed(random: &mut Random) -> Vec<Vec<u8>> {
    let mut scripts = Vec::new();
    for _ in 0..4 {
        let good = few_matches(random);
        for place in 0..good.len() {
            let mut script = good.clone();
            script[place] = changed_byte(random, good[place]);
            scripts.push(script);
        }
    }
    scripts
}

pub fn byte_moved(random: &mut Random) -> Vec<Vec<u8>> {
    let mut scripts = Vec::new();
    for _ in 0..2 {
        let good = few_matches(random);
        for place in 0..good.len() {
            let mut longer = good.clone();
            longer.insert(place, telling_byte(random));
            scripts.push(longer);
            let mut shorter = good.clone();
            shorter.remove(place);
            scripts.push(shorter);
        }
    }
    scripts
}

fn few_matches(random: &mut Random) -> Vec<u8> {
    let matches = random.count_between(0, 12);
    good::script(random, matches)
}

/// Another byte than the one given.
pub fn changed_byte(random: &mut Random, byte: u8) -> u8 {
    let choices = [
        byte.wrapping_add(1),
        byte.wrapping_sub(1),
        byte ^ (1 << random.between(0, 7)),
        byte.wrapping_add(random.between(1, 255) as u8),
    ];
    random.one_of(&choices)
}

/// A command byte, a byte that often stands in numbers, or any byte.
pub fn telling_byte(random: &mut Random) -> u8 {
    let any = random.any_byte();
    random.one_of(&[LENGTHS, DIRECT, REVERSED, MARK, END, 0, 1, 0xFF, any])
}
