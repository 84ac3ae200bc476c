//! Tables of plans with a point that costs nothing, right but for that: they are those
//! of no accepted plan, and with the leaf silent they are. And tables with another edition
//! or another U.

use std::collections::BTreeMap;

use reference::composed::Composed;
use reference::costless::{self, Costless};
use reference::gen::Random;
use reference::listed::Listed;
use reference::plan::{read, text, Plan, MOST_COST};
use reference::table::{finding, table, Finding, EDITION, RESUMING};
use reference::worked::{PLAN_A, PLAN_B};
use reference::worked_returns::PLAN_A_2;

use super::tally::{accepted, Tally};

const PLANS: usize = 400;
const MOST_RUNS: usize = 300;

/// What the tables of a plan turn out to be: by composed numbers, and by runs where
/// these are few.
fn findings(plan: &Plan) -> Vec<Finding> {
    let listed = Listed::new(plan, MOST_RUNS);
    let by_runs = listed.map(|listed| finding(&table(&listed)));
    let by_forms = finding(&table(&Composed::new(plan)));
    by_runs.into_iter().chain([by_forms]).collect()
}

fn judged(tally: &mut Tally, costless: &Costless) {
    let shown = || {
        let text = text(&costless.plan);
        let (kind, leaf) = (costless.kind(), costless.leaf);
        format!("{kind} {leaf} of {}", String::from_utf8_lossy(&text))
    };
    let number = read(&text(&costless.plan), 512)
        .err()
        .map(|refusal| refusal.0);
    tally.equal(number, Some(19), || format!("text, {}", shown()));
    for found in findings(&costless.plan) {
        tally.equal(found, Finding::Refused(19), || {
            format!("point, {}", shown())
        });
    }
    for found in costless.silent.iter().flat_map(findings) {
        tally.equal(found, Finding::Good, || format!("silent, {}", shown()));
    }
}

/// Edition and U in the head of a table that is right beside them, and what it is.
const EDITIONS: [(u64, u64, Finding); 14] = [
    (1, 0, Finding::Good),
    (2, 0, Finding::Good),
    (2, 1, Finding::Good),
    (2, MOST_COST, Finding::Good),
    (2, MOST_COST + 1, Finding::Refused(3)),
    (2, u64::MAX, Finding::Refused(3)),
    (1, 1, Finding::Differs),
    (1, MOST_COST, Finding::Differs),
    (1, u64::MAX, Finding::Differs),
    (0, 0, Finding::Differs),
    (3, 0, Finding::Differs),
    (3, 1, Finding::Differs),
    (258, 0, Finding::Differs),
    (u64::MAX, 0, Finding::Differs),
];

/// Each edition 1 plan has the table of an edition 2 plan but for its edition (02, L7).
fn editions(tally: &mut Tally) {
    for text in [PLAN_A, PLAN_B, PLAN_A_2] {
        let plan = accepted(text);
        let mut table = table(&Composed::new(&plan));
        for (edition, resume, wanted) in EDITIONS {
            (table.head[EDITION], table.head[RESUMING]) = (edition, resume);
            tally.equal(finding(&table), wanted, || {
                format!("edition {edition} with U {resume}, {text}")
            });
        }
    }
}

pub fn check(tally: &mut Tally) {
    editions(tally);
    let mut random = Random::new(61);
    let mut met = BTreeMap::new();
    for costless in costless::plans(&mut random, PLANS) {
        judged(tally, &costless);
        let silent = costless.silent.is_some();
        *met.entry((costless.kind(), silent)).or_insert(0) += 1;
    }
    println!("  points that cost nothing, and whether they can be silent: {met:?}");
    for kind in ["leaf", "call", "loop", "if"] {
        let often = met.get(&(kind, true)).is_some_and(|&count| count >= 100);
        tally.holds(often, || format!("{kind} lines that cost nothing"));
    }
}
