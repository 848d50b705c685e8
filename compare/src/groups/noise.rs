//! Bytes that mean nothing.

use super::changed::telling_byte;
use super::good;
use crate::random::Random;

pub fn noise(random: &mut Random) -> Vec<Vec<u8>> {
    let mut scripts = Vec::new();
    for _ in 0..100 {
        let any_length = random.count_between(0, 80);
        scripts.push(random.any_bytes(any_length));
        let telling_length = random.count_between(0, 80);
        scripts.push(telling_bytes(random, telling_length));
    }
    scripts
}

pub fn behind_a_good_beginning(random: &mut Random) -> Vec<Vec<u8>> {
    let mut scripts = Vec::new();
    for _ in 0..100 {
        for noise_of in [Random::any_bytes, telling_bytes] {
            let matches = random.count_between(0, 12);
            let start = good::beginning(random, matches).draft;
            let length = random.count_between(1, 60);
            let noise = noise_of(random, length);
            scripts.push(start.bytes(&noise).without_end());
        }
    }
    scripts
}

pub fn telling_bytes(random: &mut Random, count: usize) -> Vec<u8> {
    (0..count).map(|_| telling_byte(random)).collect()
}
