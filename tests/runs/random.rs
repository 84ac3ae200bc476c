//! Random plans: those whose runs can be listed are compared with the sorted list of them
//! all, others with the first of them, found visit by visit.

use reference::edition::Edition;
use reference::gen::{self, Random};
use reference::met_runs::MetRuns;
use reference::plan::{self, Plan};
use reference::runs;
use reference::short_runs::lines;

use super::comparison::Comparison;

/// How many of edition 1 are drawn in each way; a third as many of edition 2.
const SMALL: usize = 1_200;
const TIED: usize = 800;
const LONG: usize = 1_000;
const WIDE: usize = 60;
const LARGE: usize = 60;

/// The most runs of a plan that are listed.
const LISTED: usize = 1_000;

/// How often each kind of run is to be met.
const OFTEN: usize = 10;

type Draw = fn(&mut Random, Edition) -> Plan;

/// Each way of drawing plans, and how many are drawn.
const DRAWN: [(usize, Draw); 5] = [
    (SMALL, gen::small_or_calling_plan),
    (TIED, gen::tied_plan),
    (LONG, gen::long_plan),
    (WIDE, gen::wide_plan),
    (LARGE, gen::large_plan),
];

fn of_plan(comparison: &mut Comparison, met: &mut MetRuns, plan: &Plan) {
    let text = plan::text(plan);
    match runs::of_plan(plan, LISTED) {
        Some(all) => {
            met.note(&all);
            comparison.writes("a plan of few runs", &text, &lines(plan, &all));
        }
        None => comparison.text("a plan of more runs", &text),
    }
}

fn of_edition(comparison: &mut Comparison, edition: Edition) {
    let mut random = Random::new(302);
    let mut met = MetRuns::default();
    for (count, draw) in DRAWN {
        for _ in 0..edition.share(count) {
            let plan = draw(&mut random, edition);
            of_plan(comparison, &mut met, &plan);
        }
    }
    println!("runs, {edition}: {met}");
    let met = met.met(edition.share(OFTEN));
    comparison.count.holds(met, "each kind of run is met often");
}

pub fn compare_all(comparison: &mut Comparison) {
    for edition in Edition::BOTH {
        of_edition(comparison, edition);
    }
}
