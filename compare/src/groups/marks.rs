//! Marks among the matches of scripts: at, beside and between their ends, again, on the other side, and nowhere near.

use super::good::{self, good_mark, Beginning, LONGEST};
use super::shapes::{self, match_up_to};
use crate::draft::{Draft, DraftMark, DraftMatch, BYTES_OF_LENGTHS};
use crate::random::Random;
use crate::slow::carrying::Side;
use crate::slow::script::{self, Match, Script, END, LENGTHS, MARK, MOST_MARKS, MOST_MATCHES};

type Draw = fn(&mut Random) -> Vec<Vec<u8>>;

/// 02, #106: the lines that were worked out for it, and others like them.
pub fn lines_of_106(_: &mut Random) -> Vec<Vec<u8>> {
    let of_ten = || Draft::lengths(10, 10);
    let run = || of_ten().direct(0, 0, 6).reversed(2, 3, 5);
    let many = |count| (0..count).fold(of_ten(), |draft, _| draft.mark(0, 5));
    vec![
        run().mark(0, 1).end(),
        run().mark(0, 9).end(),
        of_ten()
            .mark(0, 1)
            .direct(0, 0, 6)
            .mark(1, 8)
            .reversed(2, 3, 5)
            .mark(1, 5)
            .end(),
        of_ten()
            .direct(0, 0, 1)
            .mark(0, 5)
            .mark(0, 6)
            .mark(1, 7)
            .end(),
        of_ten().direct(0, 0, 4).mark(0, 2).end(),
        of_ten().direct(0, 0, 4).mark(1, 2).mark(1, 2).end(),
        of_ten().mark(2, 0).end(),
        of_ten().mark(0, 11).end(),
        of_ten().mark(0, 10).end(),
        of_ten().mark(1, 11).end(),
        of_ten().mark(1, 10).end(),
        of_ten().mark(2, 11).end(),
        many(MOST_MARKS).end(),
        many(MOST_MARKS).command(MARK, &[]).without_end(),
        many(MOST_MARKS + 1).end(),
        of_ten().mark(0, 1).end().split_off(BYTES_OF_LENGTHS),
    ]
}

// ---- marks put into drawn scripts

/// The scripts of another group, those that are admitted with marks.
pub fn into(random: &mut Random, draw: Draw) -> Vec<Vec<u8>> {
    let scripts = draw(random);
    scripts.iter().map(|bytes| marked(random, bytes)).collect()
}

/// The same matches with marks, often between longer sequences.
fn marked(random: &mut Random, bytes: &[u8]) -> Vec<u8> {
    let Ok(mut script) = script::read(bytes) else {
        return bytes.to_vec();
    };
    for letters in [&mut script.p, &mut script.q] {
        let more = random.between(1, 10).into();
        let longer = *letters + random.one_of(&[0, 0, more]);
        *letters = longer.min(LONGEST.into());
    }
    let count = some_count(random);
    let mut marks = Vec::new();
    for _ in 0..count {
        let mark = telling_mark(random, &script, &marks);
        marks.push(mark);
    }
    mixed(random, &script, &marks)
}

/// Mostly few, and seldom as many as there can be.
fn some_count(random: &mut Random) -> usize {
    match random.between(0, 99) {
        0 => random.count_between(21, MOST_MARKS),
        1..=9 => random.count_between(5, 20),
        _ => random.count_between(1, 4),
    }
}

fn telling_mark(random: &mut Random, script: &Script, earlier: &[DraftMark]) -> DraftMark {
    let (p, q) = (script.p as u32, script.q as u32);
    if !earlier.is_empty() && random.between(0, 9) == 0 {
        return random.one_of(earlier);
    }
    if script.matches.is_empty() || random.between(0, 4) == 0 {
        return good_mark(random, p, q);
    }
    let m = random.one_of(&script.matches);
    let side = random.one_of(&[0, 1]);
    let other = random.between(0, 3) == 0;
    let [left, right] = ends(&m, if other { 1 - side } else { side });
    let position = match random.between(0, 4) {
        0 => left,
        1 => right,
        2 => random.one_of(&[left.saturating_sub(1), left + 1, right - 1, right + 1]),
        _ => random.between(left, right),
    };
    let letters = if side == 0 { p } else { q };
    DraftMark {
        side,
        position: position.min(letters),
    }
}

fn ends(m: &Match, side: u8) -> [u32; 2] {
    let span = m.span(if side == 0 { Side::A } else { Side::B });
    [*span.start() as u32, *span.end() as u32]
}

/// All marks before the matches, all behind them, or each anywhere among them.
fn mixed(random: &mut Random, script: &Script, marks: &[DraftMark]) -> Vec<u8> {
    let matches = script.matches.len();
    let [least, most] = random.one_of(&[[0, 0], [matches, matches], [0, matches], [0, matches]]);
    let mut places: Vec<usize> = marks
        .iter()
        .map(|_| random.count_between(least, most))
        .collect();
    places.sort_unstable();
    let mut marks = places.into_iter().zip(marks).peekable();
    let mut draft = Draft::lengths(script.p as u32, script.q as u32);
    for n in 0..=matches {
        while let Some((_, &mark)) = marks.next_if(|(place, _)| *place == n) {
            draft = draft.marking(mark);
        }
        if let Some(m) = script.matches.get(n) {
            draft = draft.matching(draft_of(m));
        }
    }
    draft.end()
}

fn draft_of(m: &Match) -> DraftMatch {
    DraftMatch {
        left_a: m.left_a as u32,
        left_b: m.left_b as u32,
        length: m.length as u32,
        reversed: m.reversed,
    }
}

/// The scripts of another group, with one to three marks within the leftmost match on A, on either side.
pub fn into_the_first(random: &mut Random, draw: Draw) -> Vec<Vec<u8>> {
    let mut scripts = Vec::new();
    for bytes in draw(random) {
        let script = script::read(&bytes).expect("a good script");
        let first = *script
            .matches
            .iter()
            .min_by_key(|m| m.left_a)
            .expect("matches");
        let count = random.count_between(1, 3);
        let within = |_| {
            let side = random.one_of(&[0, 1]);
            let [left, right] = ends(&first, side);
            let position = random.between(left, right);
            DraftMark { side, position }
        };
        let marks: Vec<DraftMark> = (0..count).map(within).collect();
        scripts.push(mixed(random, &script, &marks));
    }
    scripts
}

/// Few matches in many letters, where marks often are the only cuts.
pub fn among_few(random: &mut Random) -> Vec<Vec<u8>> {
    let few = |random: &mut Random| {
        let letters = random.between(20, 300);
        let count = random.between(1, 4);
        let matches: Vec<DraftMatch> = (0..count)
            .map(|_| match_up_to(random, letters, letters / 3))
            .collect();
        shapes::script(&matches)
    };
    let mut scripts = Vec::new();
    for _ in 0..300 {
        let unmarked = few(random);
        scripts.push(marked(random, &unmarked));
    }
    scripts
}

// ---- marks that change nothing

/// A few short matches, and many marks that none of them spans: beside them, on the other side, anywhere.
pub fn unspanned(random: &mut Random) -> Vec<Vec<u8>> {
    (0..60).map(|_| with_unspanned(random)).collect()
}

fn with_unspanned(random: &mut Random) -> Vec<u8> {
    let apart = random.one_of(&[0, 30, 1_000, LONGEST - 100]);
    let matches: Vec<Match> = (0..random.between(1, 4))
        .map(|_| {
            let m = match_up_to(random, 40, 9);
            Match {
                left_a: (m.left_a + 10).into(),
                left_b: (m.left_b + 10 + apart).into(),
                length: m.length.into(),
                reversed: m.reversed,
            }
        })
        .collect();
    let script = Script {
        p: (apart + 100).into(),
        q: (apart + 100).into(),
        matches,
        marks: Vec::new(),
    };
    let any = random.count_between(1, MOST_MARKS);
    let count = random.one_of(&[10, 40, any, MOST_MARKS]);
    let mut marks = Vec::new();
    while marks.len() < count {
        let mark = mark_beside(random, apart);
        let spans = |m: &Match| {
            let [left, right] = ends(m, mark.side);
            (left..=right).contains(&mark.position)
        };
        if !script.matches.iter().any(spans) {
            marks.push(mark);
        }
    }
    mixed(random, &script, &marks)
}

/// About where the matches are on either side, or anywhere.
fn mark_beside(random: &mut Random, apart: u32) -> DraftMark {
    let near = random.between(0, 60);
    let any = random.between(0, apart + 100);
    DraftMark {
        side: random.one_of(&[0, 1]),
        position: random.one_of(&[near, apart + near, any]),
    }
}

// ---- as many marks as there can be

/// 511 and 512 marks among few matches, and what comes behind them.
pub fn around_the_most(random: &mut Random) -> Vec<Vec<u8>> {
    let mut scripts = Vec::new();
    for matches in [0, 0, 0, 1, 1, 2, 3, 5, 8, 12, 20, 30] {
        for marks in [MOST_MARKS - 1, MOST_MARKS] {
            let start = beginning(random, matches, marks);
            scripts.extend(with_one_more(random, &start));
            scripts.extend(with_other_ends(&start.draft));
        }
    }
    scripts
}

/// So many good matches and good marks, in any order.
fn beginning(random: &mut Random, matches: usize, marks: usize) -> Beginning {
    let start = good::beginning(random, 0);
    let (p, q) = (start.p, start.q);
    let mut are_marks = [vec![false; matches], vec![true; marks]].concat();
    random.shuffle(&mut are_marks);
    let draft = are_marks
        .into_iter()
        .fold(Draft::lengths(p, q), |draft, is_mark| {
            if is_mark {
                draft.marking(good_mark(random, p, q))
            } else {
                draft.matching(good::good_match(random, p, q))
            }
        });
    Beginning { p, q, draft }
}

/// A mark behind `start`: cut short at each of its bytes, whole, and with each fault.
fn with_one_more(random: &mut Random, start: &Beginning) -> Vec<Vec<u8>> {
    let Beginning { p, q, draft } = start;
    let mark = good_mark(random, *p, *q);
    let before = draft.clone().without_end().len();
    let whole = draft.clone().marking(mark).without_end();
    let cut_short = (before..=whole.len()).map(|length| whole[..length].to_vec());
    let no_side = DraftMark { side: 2, ..mark };
    let beyond = DraftMark {
        position: u32::MAX,
        ..mark
    };
    let both = DraftMark { side: 2, ..beyond };
    let changed = [mark, no_side, beyond, both].map(|mark| draft.clone().marking(mark).end());
    cut_short.chain(changed).collect()
}

/// Other commands than a mark behind `start`, and two marks instead of one.
fn with_other_ends(start: &Draft) -> Vec<Vec<u8>> {
    let start = || start.clone();
    let ended = start().end();
    vec![
        ended.clone(),
        [ended, vec![MARK]].concat(),
        start().command(0, &[]).end(),
        start().command(LENGTHS, &[1, 1]).end(),
        start().direct(0, 0, 1).end(),
        start().direct(0, 0, 0).end(),
        start().mark(0, 0).mark(1, 0).end(),
    ]
}

/// 2,048 matches and 512 marks in any order: by themselves, with one command more, and with one less.
pub fn longest(random: &mut Random) -> Vec<Vec<u8>> {
    let mut scripts = Vec::new();
    for matches in [MOST_MATCHES - 1, MOST_MATCHES] {
        for marks in [MOST_MARKS - 1, MOST_MARKS] {
            let start = beginning(random, matches, marks).draft;
            let start = || start.clone();
            scripts.push(start().end());
            scripts.push(start().without_end());
            scripts.push(start().mark(1, 0).end());
            scripts.push(start().direct(0, 0, 1).end());
            scripts.push(start().mark(0, 0).direct(0, 0, 1).mark(1, 0).end());
            scripts.push(start().direct(0, 0, 1).mark(0, 0).reversed(0, 0, 1).end());
            scripts.push([start().end(), vec![END]].concat());
        }
    }
    scripts
}
