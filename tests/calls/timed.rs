//! Timed runs: whatever the ticks, every call of a timed run is accepted, no
//! reading passes the deadline, no late mark is set, and the others run exactly
//! while no release is open or, in edition 1, the condition has held at every decision
//! since, in edition 2 (02, L7) the rule held at the latest one.

use lent::tally::Tally;
use reference::composed::Composed;
use reference::deep;
use reference::edition::Edition;
use reference::gen::{self, Random};
use reference::numbers::Numbers;
use reference::plan::Plan;
use reference::table;

use super::world::{Met, World};

/// Runs of small plans of edition 1 begun and, at least, ended; how many large plans of
/// each edition have runs, more of edition 2, where final returns are rare; and how many
/// runs of one plan follow each other.
const RUNS: usize = 110_000;
const ENDED: usize = 100_000;
const LARGE: [usize; 2] = [80, 160];
const OF_ONE_PLAN: usize = 10;

/// Runs of one plan on one state, run after run, the last perhaps broken off.
fn runs(tally: &mut Tally, random: &mut Random, met: &mut Met, plan: &Plan, long: usize) {
    let composed = Composed::new(plan);
    if composed.total() + plan.switch > plan.deadline {
        return;
    }
    let table = table::table(&composed);
    let mut world = World::new(&composed, &table, tally, random, met);
    for _ in 0..OF_ONE_PLAN {
        if world.timed_run(long).is_err() {
            return;
        }
    }
}

/// Runs of small plans, and of large and deep ones.
fn of_edition(tally: &mut Tally, edition: Edition) -> [Met; 2] {
    let mut random = Random::new(92);
    let (mut small, mut large) = (Met::default(), Met::default());
    while small.runs < edition.share(RUNS) {
        let plan = gen::small_plan(&mut random, edition);
        runs(tally, &mut random, &mut small, &plan, 60);
    }
    for plan in &deep::and_large(&mut random, edition, LARGE[edition as usize]) {
        runs(tally, &mut random, &mut large, plan, 100);
    }
    [small, large]
}

/// Holds what was met of each kind to how often it is to be.
fn all_met(tally: &mut Tally, edition: Edition, small: &Met, large: &Met) {
    let often = [
        small.worst,
        small.refused,
        small.at_release,
        small.at_report,
        small.at_deadline,
        small.broken_off,
    ];
    let often = often.iter().all(|&count| count >= edition.share(1_000));
    let ended = small.ended >= edition.share(ENDED);
    tally.holds(often && ended && large.ended >= 200, || {
        "timed runs of every kind".to_string()
    });
    let finals = small.finals.met(edition, edition.share(500));
    tally.holds(finals && large.finals.answered(edition, 5), || {
        "final decisions of every kind".to_string()
    });
    tally.holds(small.visits.met(edition, edition.share(20)), || {
        "visits with a smaller stretch of every kind".to_string()
    });
    let twice = small.returns.twice(500, 10) && large.returns.twice(20, 100);
    let several = edition == Edition::First || twice && large.returns.answered(5);
    tally.holds(small.returns.met(edition, 500) && several, || {
        "returns of every kind".to_string()
    });
}

pub fn compare_all(tally: &mut Tally) {
    for edition in Edition::BOTH {
        let [small, large] = of_edition(tally, edition);
        small.print(&format!("{edition}, small plans"));
        large.print(&format!("{edition}, large plans"));
        all_met(tally, edition, &small, &large);
    }
}
