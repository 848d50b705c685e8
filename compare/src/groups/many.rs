//! Scripts of about 2,048 matches, and longer ones.

use super::changed::changed_byte;
use super::good;
use super::noise::telling_bytes;
use crate::draft::{Draft, DraftMatch};
use crate::random::Random;
use crate::slow::script::{LENGTHS, MOST_MATCHES};

/// 02, #106: as many bytes decide the outcome of longer input too.
const DECIDING_BYTES: usize = 29_707;

pub fn around_the_most_matches(random: &mut Random) -> Vec<Vec<u8>> {
    let mut scripts = Vec::new();
    for _ in 0..6 {
        for matches in [MOST_MATCHES - 1, MOST_MATCHES] {
            let start = good::beginning(random, matches);
            let m = good::good_match(random, start.p, start.q);
            scripts.extend(with_one_more(&start.draft, m));
            scripts.extend(with_other_ends(&start.draft, m));
        }
    }
    scripts
}

/// The match `m` behind `start`: cut short at each of its bytes, whole, and with each fault.
fn with_one_more(start: &Draft, m: DraftMatch) -> Vec<Vec<u8>> {
    let before = start.clone().without_end().len();
    let whole = start.clone().matching(m).without_end();
    let cut_short = (before..=whole.len()).map(|length| whole[..length].to_vec());
    let empty = DraftMatch { length: 0, ..m };
    let beyond_a = DraftMatch {
        left_a: u32::MAX,
        ..m
    };
    let beyond_b = DraftMatch {
        left_b: u32::MAX,
        ..m
    };
    let changed = [m, empty, beyond_a, beyond_b].map(|m| start.clone().matching(m).end());
    cut_short.chain(changed).collect()
}

/// Other commands than a match behind `start`, and two matches instead of one.
fn with_other_ends(start: &Draft, m: DraftMatch) -> Vec<Vec<u8>> {
    let start = || start.clone();
    let ended = start().end();
    vec![
        ended.clone(),
        [ended, vec![0]].concat(),
        start().command(0, &[]).end(),
        start().command(LENGTHS, &[1, 1]).end(),
        start().command(LENGTHS, &[]).without_end(),
        start().matching(m).matching(m).end(),
    ]
}

/// So few that every match of each can be asked for.
pub fn longest(random: &mut Random) -> Vec<Vec<u8>> {
    let counts = [[MOST_MATCHES - 1; 2].as_slice(), &[MOST_MATCHES; 4]].concat();
    let script = |matches| good::script(random, matches);
    counts.into_iter().map(script).collect()
}

pub fn changed(random: &mut Random) -> Vec<Vec<u8>> {
    let good = good::script(random, MOST_MATCHES);
    let mut scripts = Vec::new();
    for _ in 0..100 {
        let place = random.count_between(0, good.len() - 1);
        let mut changed = good.clone();
        changed[place] = changed_byte(random, good[place]);
        scripts.push(changed);
        scripts.push(good[..place].to_vec());
        let mut longer = good.clone();
        longer.insert(place, random.any_byte());
        scripts.push(longer);
        let mut shorter = good.clone();
        shorter.remove(place);
        scripts.push(shorter);
    }
    scripts
}

/// Long scripts, each also as the bytes that decide it.
pub fn past_the_longest(random: &mut Random) -> Vec<Vec<u8>> {
    let mut scripts = Vec::new();
    for extra in [1, 2, 3, 5, 6, 7, 12, 13, 14, 1_000, 40_000] {
        let ended = good::script(random, MOST_MATCHES);
        scripts.push([ended, random.any_bytes(extra)].concat());
        let unended = good::beginning(random, MOST_MATCHES).draft;
        scripts.push(unended.bytes(&telling_bytes(random, extra)).without_end());
        scripts.push(good::script(random, MOST_MATCHES + extra));
        let early = good::beginning(random, 3).draft;
        let noise = random.any_bytes(DECIDING_BYTES + extra);
        scripts.push(early.bytes(&noise).without_end());
        scripts.push(noise);
    }
    let deciding = |script: &Vec<u8>| script[..script.len().min(DECIDING_BYTES)].to_vec();
    let decided = scripts.iter().map(deciding).collect();
    [scripts, decided].concat()
}
