//! Which decisions are final, no run meeting a further point (02, L3): read off the
//! list of all runs and found form by form, at every history of random small plans.

use std::collections::BTreeMap;

use reference::composed::{Composed, Place};
use reference::listed::Listed;
use reference::numbers::Numbers;
use reference::plan::{text, Kind, Plan};

use super::small::{each_plan, longer, PLANS};
use super::tally::Tally;

/// How often each kind of decision is to be met, with a point ahead and without, and
/// how many points of each kind whose visits differ.
const OFTEN: usize = 200;
const DIFFERENT: usize = 20;

/// What was met. The last point is named by its kind, and so is the release.
#[derive(Default)]
struct Met {
    histories: usize,
    /// By whether the decision is final.
    kinds: BTreeMap<(&'static str, bool), usize>,
    /// Points that are final at some visits and not at others, in runs of one plan.
    by_visit: BTreeMap<&'static str, usize>,
}

fn kind(plan: &Plan, leaf: Option<usize>) -> &'static str {
    match leaf.map(|leaf| &plan.leaves()[leaf].1.kind) {
        None => "release",
        Some(Kind::Leaf) => "leaf",
        Some(Kind::Call(_)) => "call",
        Some(Kind::Loop(..)) => "loop",
        Some(Kind::If(..)) => "if",
    }
}

/// A plan with both ways to judge it, and for each point whether some visit was not
/// final and whether some was.
struct Both<'a> {
    listed: &'a Listed<'a>,
    composed: &'a Composed<'a>,
    visits: BTreeMap<usize, [bool; 2]>,
}

impl Both<'_> {
    fn shown(&self, history: &[usize]) -> String {
        let plan = text(self.listed.plan());
        format!("{history:?} in {}", String::from_utf8_lossy(&plan))
    }

    /// Compares this history and all that begin with it.
    fn compare(&mut self, tally: &mut Tally, met: &mut Met, history: &Vec<usize>, place: &Place) {
        let (listed, composed) = (self.listed, self.composed);
        let is_final = listed.is_final(history);
        tally.equal(composed.is_final(place), is_final, || self.shown(history));
        let next = listed.next_points(history);
        tally.equal(next.is_empty(), is_final, || self.shown(history));
        let leaf = history.last().copied();
        met.histories += 1;
        *met.kinds
            .entry((kind(listed.plan(), leaf), is_final))
            .or_default() += 1;
        if let Some(leaf) = leaf {
            self.visits.entry(leaf).or_default()[usize::from(is_final)] = true;
        }
        for (history, place) in longer(listed, composed, history, place) {
            self.compare(tally, met, &history, &place);
        }
    }
}

/// Every history of a plan, and the points whose visits differ.
fn of_plan(tally: &mut Tally, met: &mut Met, listed: &Listed) {
    let plan = listed.plan();
    let composed = Composed::new(plan);
    let mut both = Both {
        listed,
        composed: &composed,
        visits: BTreeMap::new(),
    };
    both.compare(tally, met, &listed.release(), &composed.release());
    for (&leaf, &visits) in &both.visits {
        if visits == [true, true] {
            *met.by_visit.entry(kind(plan, Some(leaf))).or_default() += 1;
        }
    }
}

pub fn check(tally: &mut Tally) {
    let mut met = Met::default();
    each_plan(34, |listed| of_plan(tally, &mut met, listed));
    println!(
        "  {} histories of {PLANS} plans: {:?}",
        met.histories, met.kinds
    );
    println!("  points whose visits differ: {:?}", met.by_visit);
    for kind in ["release", "leaf", "call", "loop", "if"] {
        for is_final in [false, true] {
            let count = met.kinds.get(&(kind, is_final));
            tally.holds(count.is_some_and(|&count| count >= OFTEN), || {
                format!("{kind} decisions, final: {is_final}")
            });
        }
    }
    for kind in ["leaf", "call", "loop", "if"] {
        let count = met.by_visit.get(kind);
        tally.holds(count.is_some_and(|&count| count >= DIFFERENT), || {
            format!("{kind} points whose visits differ")
        });
    }
}
