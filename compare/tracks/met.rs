// What the run has met. Each case has to come up so often that the run shows something.
use crate::draw::Script;
use crate::slow::{self, Closure, Match, Place};
use crate::trial::{index_room, Call, Outcome, Wanted};

// The engine makes an index of more matches than these, after so many turns. A turn brings no cut that takes more rounds
// than there were turns, so there are at least as many turns as rounds.
const FEW_MATCHES: usize = 32;
const FIRST_TURNS: usize = 17;

// So many cuts fill the short run of a set.
const MANY_CUTS: usize = 512;

// How often a case came up, and how often it has to.
struct Case {
    name: &'static str,
    least: usize,
    times: usize,
}

#[derive(Default)]
pub struct Met {
    cases: Vec<Case>,
    pub calls: usize,
}

impl Met {
    fn add(&mut self, name: &'static str, least: usize, times: usize) {
        match self.cases.iter_mut().find(|case| case.name == name) {
            Some(case) => case.times += times,
            None => self.cases.push(Case { name, least, times }),
        }
    }

    fn see(&mut self, name: &'static str, least: usize, is: bool) {
        self.add(name, least, usize::from(is));
    }

    pub fn see_script(&mut self, script: &Script, closure: &Closure) {
        let matches = &script.matches;
        self.see("scripts of one track", 1_000, script.tracks == 1);
        self.see("scripts of sixteen tracks", 1_000, script.tracks == 16);
        self.see("scripts without a match", 500, matches.is_empty());
        self.see("of too many cuts to find all", 20, !closure.whole);
        self.see(
            "of several tracks, and nearly all cuts on one",
            500,
            is_heavy(script, closure),
        );
        let itself = |m: &Match| m.sides[0].track == m.sides[1].track;
        let direct = |m: &&Match| itself(m) && !m.reversed;
        let reversed = |m: &&Match| itself(m) && m.reversed;
        self.add(
            "direct matches of a track with itself",
            10_000,
            matches.iter().filter(direct).count(),
        );
        self.add(
            "reversed ones",
            10_000,
            matches.iter().filter(reversed).count(),
        );
        let roles =
            (0..script.tracks as u8).map(|track| [0, 1].map(|side| script.has(side, track)));
        let as_role = |role| roles.clone().filter(|&is| is == role).count();
        self.add("tracks that are only first", 5_000, as_role([true, false]));
        self.add("only second", 5_000, as_role([false, true]));
        self.add("both", 5_000, as_role([true, true]));
        self.see_marks(script, closure);
    }

    fn see_marks(&mut self, script: &Script, closure: &Closure) {
        let marks = script.marks.iter();
        let ends = slow::ends(&script.matches);
        let spanned = |mark: &&Place| slow::is_spanned(&script.matches, **mark);
        let between = |mark: &&Place| !ends.contains(mark) && closure.cuts.contains(mark);
        let unnamed = |mark: &&Place| ![0, 1].iter().any(|&side| script.has(side, mark.track));
        let all = marks.len();
        let spanned = marks.clone().filter(spanned).count();
        self.add("marks that are spanned", 50_000, spanned);
        self.add(
            "of them between ends",
            50_000,
            marks.clone().filter(between).count(),
        );
        self.add("marks that are not spanned", 50_000, all - spanned);
        self.add(
            "of them on tracks that no match names",
            10_000,
            marks.clone().filter(unnamed).count(),
        );
        let distinct: std::collections::BTreeSet<&Place> = marks.collect();
        self.add("marks that come again", 10_000, all - distinct.len());
    }

    pub fn see_call(
        &mut self,
        script: &Script,
        closure: &Closure,
        wanted: &Wanted,
        call: &Call,
        outcome: &Outcome,
    ) {
        self.calls += 1;
        let (all, capacity, matches) = (outcome.all, call.capacity, script.matches.len());
        let exact = all && capacity == wanted.rows;
        let short = !all && wanted.whole && capacity + 1 == wanted.rows;
        self.see("calls with just enough rows", 20_000, exact);
        self.see("with one row less", 20_000, short);
        self.see("with more rows", 20_000, all && !exact);
        self.see("with no row", 20_000, capacity == 0);
        self.see(
            "just enough rows, and sets that slid",
            5_000,
            exact && outcome.slid > 0,
        );
        self.see(
            "sets that outgrew their share",
            5_000,
            exact && outcome.outgrown > 0,
        );
        let many = |set: &Vec<u32>| set.len() > MANY_CUTS;
        let many = all && wanted.sets.iter().flatten().any(many);
        self.see("sets of more than 512 cuts", 1_000, many);
        let late = matches > FEW_MATCHES && closure.rounds > FIRST_TURNS;
        let room = call.indexes.iter().all(|&room| room >= index_room(matches));
        self.see(
            "33 matches, 18 turns, room for an index",
            2_000,
            late && room && all,
        );
        self.see("of them just enough rows", 1_000, late && room && exact);
        self.see("one row less there", 1_000, late && room && short);
        self.see(
            "33 matches, 18 turns, no room for an index",
            2_000,
            late && !room && all,
        );
        let mut sizes = call.groups.sizes();
        self.see(
            "groups of more than 32 matches",
            2_000,
            call.groups.sizes().any(|size| size > FEW_MATCHES),
        );
        self.see(
            "groups of no match",
            1_000,
            call.groups.sizes().any(|size| size == 0),
        );
        self.see(
            "only groups of one match",
            5_000,
            matches > 1 && sizes.all(|size| size == 1),
        );
    }

    // Each case with its count. Whether each came up often enough.
    pub fn print(&self) -> bool {
        let counts = self
            .cases
            .iter()
            .map(|case| format!("{} {}", case.times, case.name));
        println!("tracks: {}", counts.collect::<Vec<_>>().join(", "));
        self.cases.iter().all(|case| case.times >= case.least)
    }
}

// Whether one of several tracks has nine cuts in ten.
fn is_heavy(script: &Script, closure: &Closure) -> bool {
    let cuts = &closure.cuts;
    let on = |track: u8| cuts.iter().filter(|cut| cut.track == track).count();
    let most = (0..script.tracks as u8).map(on).max();
    script.tracks > 2 && !cuts.is_empty() && most >= Some(cuts.len() * 9 / 10)
}
