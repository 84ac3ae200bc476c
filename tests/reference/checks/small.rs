//! The small plans at whose histories two ways of finding a number are compared. They are
//! of edition 1: none of these numbers knows of U.

use reference::composed::{Composed, Place};
use reference::edition::Edition;
use reference::gen::{self, Random};
use reference::listed::Listed;
use reference::numbers::Numbers;
use reference::plan::Plan;

/// How many are drawn from a seed.
pub const PLANS: usize = 6_000;

/// The most runs of one of them.
const MOST_RUNS: usize = 200;

/// Hands on so many plans that are drawn from this seed, with their runs listed.
pub fn each_drawn(
    seed: u64,
    count: usize,
    draw: fn(&mut Random, Edition) -> Plan,
    mut of_plan: impl FnMut(&Listed),
) {
    let mut random = Random::new(seed);
    let mut plans = 0;
    while plans < count {
        let plan = draw(&mut random, Edition::First);
        if let Some(listed) = Listed::new(&plan, MOST_RUNS) {
            of_plan(&listed);
            plans += 1;
        }
    }
}

/// Hands on the plans of this seed, with their runs listed.
pub fn each_plan(seed: u64, of_plan: impl FnMut(&Listed)) {
    each_drawn(seed, PLANS, gen::small_or_calling_plan, of_plan);
}

/// A history and its place with each report that can come next.
pub fn longer(
    listed: &Listed,
    composed: &Composed,
    history: &Vec<usize>,
    place: &Place,
) -> Vec<(Vec<usize>, Place)> {
    let with = |leaf: usize| {
        let by_runs = listed.report(history, leaf);
        let by_forms = composed.report(place, leaf);
        by_runs
            .zip(by_forms)
            .expect("a point that comes next, both ways")
    };
    listed.next_points(history).into_iter().map(with).collect()
}
