//! The stretch of each visit (02, L6): read off the list of all runs and found form by
//! form at every history of random small plans, with the largest of its visits for the
//! listing; and random histories beside a controller that goes by the stretch of the
//! point, as decisions did before.

use std::collections::BTreeMap;

use reference::calls::{Answer, Controller, Word};
use reference::composed::{Composed, Place};
use reference::edition::Edition;
use reference::gen::{self, Random};
use reference::listed::Listed;
use reference::numbers::Numbers;
use reference::plan::{text, Form, Kind, Plan};
use reference::rules;

use super::small::{each_plan, longer, PLANS};
use super::tally::Tally;

/// Random histories of small and of large plans, and the longest that is played.
const SMALL: usize = 8_000;
const LARGE: usize = 400;
const LONG: usize = 200;

/// How often each kind of history is to be met, and each kind of point.
const OFTEN: usize = 200;
const OF_EACH_KIND: usize = 30;

fn shown(plan: &Plan, history: &[usize]) -> String {
    format!("{history:?} in {}", String::from_utf8_lossy(&text(plan)))
}

/// What was met at histories that end in a report.
#[derive(Default)]
struct Met {
    histories: usize,
    /// Visits with a smaller stretch than others of their point, by its kind.
    shorter: BTreeMap<&'static str, usize>,
    /// What the smaller ones stand in or before, each named.
    features: BTreeMap<&'static str, usize>,
    /// Histories at which a reading goes on that was suspended before L6, and plans.
    spared: usize,
    spared_plans: usize,
}

fn kind(form: &Form) -> &'static str {
    match form.kind {
        Kind::Leaf => "leaf",
        Kind::Call(_) => "call",
        Kind::Loop(..) => "loop",
        Kind::If(..) => "if",
    }
}

/// How many calls of the plan name a function, and from how many depths: at level 1 of
/// the main function, and elsewhere.
fn callers(plan: &Plan, composed: &Composed, function: usize) -> (usize, bool) {
    let leaves = plan.leaves();
    let calls: Vec<bool> = leaves
        .iter()
        .filter(|(_, form)| form.kind == Kind::Call(function))
        .map(|&(caller, form)| caller == plan.main() && composed.level(form.leaf) == 1)
        .collect();
    let depths = calls.contains(&true) && calls.contains(&false);
    (calls.len(), depths)
}

/// Whether one of these points stands in a silent if behind the last one, whose other part
/// has no point.
fn past_half_silent_if(plan: &Plan, last: usize, next: &[usize]) -> bool {
    let called = rules::functions_with_points(plan);
    plan.leaves().iter().any(|(_, form)| {
        let Kind::If(then_part, else_part) = &form.kind else {
            return false;
        };
        let parts = [then_part, else_part].map(|part| rules::meets_point(&called, part));
        let inside = |part: &Vec<Form>| {
            part.iter()
                .any(|form| form.point && next.contains(&form.leaf))
        };
        !form.point
            && parts[0] != parts[1]
            && last < form.leaf
            && (inside(then_part) || inside(else_part))
    })
}

/// What a place whose visit has a smaller stretch stands in or before.
fn features(composed: &Composed, place: &Place) -> Vec<&'static str> {
    let plan = composed.plan();
    let leaves = plan.leaves();
    let &(last, _) = place.last().expect("a report");
    let mut found = Vec::new();
    let (calls, depths) = callers(plan, composed, leaves[last].0);
    if calls >= 2 {
        found.push("called from several places");
    }
    if depths {
        found.push("called at several depths");
    }
    let is_call = |&&(leaf, _): &&(usize, u64)| matches!(leaves[leaf].1.kind, Kind::Call(_));
    let outer = &place[..place.len() - 1];
    if outer.iter().filter(is_call).count() >= 2 {
        found.push("in a call in a call");
    }
    // Of each open loop, whether this is its last round, or its last visit.
    let rounds: Vec<bool> = place
        .iter()
        .enumerate()
        .filter_map(|(at, &(leaf, visits))| match leaves[leaf].1.kind {
            Kind::Loop(bound, _) if at + 1 == place.len() => Some(visits > bound),
            Kind::Loop(bound, _) => Some(visits == bound),
            _ => None,
        })
        .collect();
    if rounds.contains(&true) && rounds.contains(&false) {
        found.push("some of the open loops at their end");
    }
    if rounds.len() >= 2 && !rounds.contains(&false) {
        found.push("several open loops, all at their end");
    }
    let next: Vec<usize> = composed.next_points(place).into_iter().collect();
    if past_half_silent_if(plan, last, &next) {
        found.push("an if with one silent part ahead");
    }
    if composed.is_final(place) {
        found.push("final");
    } else {
        found.push("not final");
    }
    found
}

/// A plan with both ways to find its numbers, and for each point the largest of its
/// visits' stretches so far.
struct Both<'a> {
    listed: &'a Listed<'a>,
    composed: &'a Composed<'a>,
    largest: BTreeMap<usize, u64>,
    spared: usize,
}

impl Both<'_> {
    /// Compares this history and all that begin with it.
    fn compare(&mut self, tally: &mut Tally, met: &mut Met, history: &Vec<usize>, place: &Place) {
        let (listed, composed) = (self.listed, self.composed);
        let plan = listed.plan();
        let own = listed.stretch_at(history);
        tally.equal(composed.stretch_at(place), own, || {
            format!("stretch at {}", shown(plan, history))
        });
        match history.last() {
            None => tally.equal(own, listed.release_stretch(), || {
                format!("stretch of the release, {}", shown(plan, history))
            }),
            Some(&leaf) => self.visited(tally, met, leaf, history, place),
        }
        for (history, place) in longer(listed, composed, history, place) {
            self.compare(tally, met, &history, &place);
        }
    }

    /// One visit of a point.
    fn visited(
        &mut self,
        tally: &mut Tally,
        met: &mut Met,
        leaf: usize,
        history: &Vec<usize>,
        place: &Place,
    ) {
        let (listed, composed) = (self.listed, self.composed);
        let plan = listed.plan();
        let own = listed.stretch_at(history);
        met.histories += 1;
        let largest = self.largest.entry(leaf).or_default();
        *largest = own.max(*largest);
        let (needed, before) = (listed.needed(history), listed.needed_before(history));
        tally.holds(needed <= before, || {
            format!("more is needed at {}", shown(plan, history))
        });
        if own < listed.stretch(leaf) {
            *met.shorter.entry(kind(plan.leaves()[leaf].1)).or_default() += 1;
            for feature in features(composed, place) {
                *met.features.entry(feature).or_default() += 1;
            }
        }
        self.spared += usize::from(needed < before && needed <= plan.deadline);
    }
}

/// Every history of a plan, and the largest stretch of each point.
fn of_plan(tally: &mut Tally, met: &mut Met, listed: &Listed) {
    let plan = listed.plan();
    let composed = Composed::new(plan);
    let mut both = Both {
        listed,
        composed: &composed,
        largest: BTreeMap::new(),
        spared: 0,
    };
    both.compare(tally, met, &listed.release(), &composed.release());
    let of_points: BTreeMap<usize, u64> = plan
        .leaves()
        .iter()
        .filter(|(_, form)| form.point)
        .map(|(_, form)| (form.leaf, listed.stretch(form.leaf)))
        .collect();
    tally.equal(&both.largest, &of_points, || {
        format!("largest of all visits, {}", shown(plan, &[]))
    });
    met.spared += both.spared;
    met.spared_plans += usize::from(both.spared > 0);
}

fn all_histories(tally: &mut Tally) {
    let mut met = Met::default();
    each_plan(36, |listed| of_plan(tally, &mut met, listed));
    let Met {
        histories,
        shorter,
        features,
        spared,
        spared_plans,
    } = met;
    println!("  {histories} histories of {PLANS} plans; visits with a smaller stretch than");
    println!("  their point: {shorter:?}");
    println!("    {features:?}");
    println!(
        "  a reading that was suspended goes on at {spared} histories of {spared_plans} plans"
    );
    for kind in ["leaf", "call", "loop", "if"] {
        let count = shorter.get(kind).copied().unwrap_or(0);
        tally.holds(count >= OF_EACH_KIND, || format!("{kind} visits with less"));
    }
    for feature in [
        "called from several places",
        "called at several depths",
        "in a call in a call",
        "some of the open loops at their end",
        "several open loops, all at their end",
        "an if with one silent part ahead",
        "final",
        "not final",
    ] {
        let count = features.get(feature).copied().unwrap_or(0);
        tally.holds(count >= OFTEN, || format!("{feature}: {count}"));
    }
    tally.holds(spared >= OFTEN && spared_plans >= OFTEN, || {
        format!("spared {spared} times in {spared_plans} plans")
    });
}

/// How decisions of the same calls differ from those before L6.
#[derive(Default)]
struct Beside {
    histories: usize,
    decisions: usize,
    /// Decisions that go on where they suspended before, the others running in both.
    spared: usize,
    spared_plans: usize,
    /// The opposite.
    lost: usize,
}

/// The same calls on a controller of today and on one from before L6.
struct Pair<'a> {
    plan: &'a Plan,
    now: Controller<'a, Composed<'a>>,
    before: Controller<'a, Composed<'a>>,
}

impl Pair<'_> {
    /// A reading for the next report, at or beside where one of the two turns.
    fn reading(&self, random: &mut Random, leaf: u64) -> u64 {
        let last = self.now.last_reading();
        let edge = |turning: Option<i128>| turning.map_or(0, |at| at.max(0) as u64);
        let (now, before) = (
            edge(self.now.turning(leaf)),
            edge(self.before.turning(leaf)),
        );
        let differs = now > before;
        let near = match random.below(40) {
            0 => now,
            1 => now + 1,
            2 => before,
            3 => before + 1,
            4..=20 if differs => before + 1 + random.below(now - before),
            _ => last,
        };
        near.max(last)
    }

    /// Compares two answers to the same call; `ran` says whether the others ran in both.
    fn compare(&self, tally: &mut Tally, beside: &mut Beside, ran: bool, both: [Answer; 2]) {
        beside.decisions += 1;
        let [Answer::Decision {
            word,
            remaining,
            margin,
            late,
        }, Answer::Decision {
            word: word_before,
            remaining: remaining_before,
            margin: margin_before,
            late: late_before,
        }] = both
        else {
            tally.equal(both[0], both[1], || shown(self.plan, &[]));
            return;
        };
        let alike = (remaining, late) == (remaining_before, late_before);
        tally.holds(alike && margin >= margin_before, || {
            format!("{both:?} on {}", shown(self.plan, &[]))
        });
        if ran {
            beside.spared += usize::from((word, word_before) == (Word::Go, Word::Suspend));
            beside.lost += usize::from((word, word_before) == (Word::Suspend, Word::Go));
        }
        // Whoever was suspended by now was suspended before.
        let kept = self.before.suspended() || !self.now.suspended();
        tally.holds(kept, || format!("{both:?} on {}", shown(self.plan, &[])));
    }

    fn play(&mut self, tally: &mut Tally, random: &mut Random, run: &[usize], beside: &mut Beside) {
        beside.histories += 1;
        let both = [self.now.release(), self.before.release()];
        tally.equal(both[0], both[1], || {
            format!("release on {}", shown(self.plan, &[]))
        });
        if !self.now.is_running() {
            return;
        }
        let leaves = self.plan.leaves();
        for &leaf in run.iter().filter(|&&leaf| leaves[leaf].1.point) {
            let reading = self.reading(random, leaf as u64);
            let ran = !self.now.suspended() && !self.before.suspended();
            let both = [&mut self.now, &mut self.before]
                .map(|controller| controller.report(leaf as u64, reading));
            self.compare(tally, beside, ran, both);
        }
        let reading = self.now.last_reading();
        let accepted = [&mut self.now, &mut self.before]
            .map(|controller| matches!(controller.end(reading), Answer::End { .. }));
        tally.equal(accepted, [true, true], || {
            format!("end on {}", shown(self.plan, run))
        });
    }
}

/// Four random histories of a plan.
fn beside_before(tally: &mut Tally, random: &mut Random, plan: &Plan, beside: &mut Beside) {
    let composed = Composed::new(plan);
    let mut pair = Pair {
        plan,
        now: Controller::new(&composed),
        before: Controller::by_rule(&composed, Composed::needed_before),
    };
    let spared = beside.spared;
    for _ in 0..4 {
        if let Some(run) = gen::random_run(random, plan, LONG) {
            pair.play(tally, random, &run, beside);
        }
    }
    beside.spared_plans += usize::from(beside.spared > spared);
}

fn random_histories(tally: &mut Tally, edition: Edition) {
    let mut random = Random::new(37);
    let mut beside = Beside::default();
    for _ in 0..edition.share(SMALL / 4) {
        let plan = gen::small_or_calling_plan(&mut random, edition);
        beside_before(tally, &mut random, &plan, &mut beside);
    }
    for _ in 0..edition.share(LARGE / 4) {
        let plan = gen::large_plan(&mut random, edition);
        beside_before(tally, &mut random, &plan, &mut beside);
    }
    let Beside {
        histories,
        decisions,
        spared,
        spared_plans,
        lost,
    } = beside;
    println!("  {edition}: {histories} random histories, {decisions} reports");
    println!("  {spared} of {spared_plans} plans");
    println!("  go on where the stretch of the point suspended, {lost} the other way");
    tally.equal(lost, 0, || "suspended where it went on before".to_string());
    tally.holds(histories > edition.share(SMALL / 2), || {
        format!("{histories} histories")
    });
    let often = edition.share(OFTEN);
    tally.holds(spared >= often && spared_plans >= often / 2, || {
        format!("{spared} decisions of {spared_plans} plans are spared")
    });
}

pub fn check(tally: &mut Tally) {
    all_histories(tally);
    for edition in Edition::BOTH {
        random_histories(tally, edition);
    }
}
