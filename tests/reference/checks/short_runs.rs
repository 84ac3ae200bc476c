//! All short runs (02, L10): the worked lists; random plans, picked from the list of all
//! runs and visit by visit; plans with many, whose first ones are in order and runs of the
//! plan; and how many there are, counted in a third way.

use std::collections::BTreeSet;

use reference::edition::Edition;
use reference::gen::{self, Random};
use reference::many_runs;
use reference::met_runs::MetRuns;
use reference::ordered_runs;
use reference::plan::{self, text, Form, Kind, Plan, MOST_LEAVES};
use reference::runs;
use reference::short_runs::{beginning, count, lines, printed, MOST_VISITS};
use reference::worked_runs::{made, CASES};

use super::tally::{accepted, Tally};

/// The most runs of a plan that are listed, and the most that are looked at one by one.
const LISTED: usize = 1_000;
const LOOKED_AT: usize = 300;

/// Plans of each kind, and those with many runs.
const SMALL: usize = 3_000;
const LARGE: usize = 150;

/// How often each kind of run is to be met.
const OFTEN: usize = 30;

fn shown(plan: &Plan) -> String {
    String::from_utf8_lossy(&text(plan)).into_owned()
}

/// What is printed for a text, both ways where its runs can be listed.
fn one(tally: &mut Tally, name: &str, text: &str, wanted: &str) {
    let found = printed(text.as_bytes(), LISTED);
    tally.equal((found.lines.as_str(), found.all), (wanted, true), || {
        name.to_string()
    });
    if let Ok(plan) = plan::read(text.as_bytes(), MOST_LEAVES) {
        tally.equal(count(&plan), wanted.lines().count() as u128, || {
            format!("{name}, counted")
        });
        if let Some(all) = runs::of_plan(&plan, LISTED) {
            tally.equal(lines(&plan, &all).as_str(), wanted, || {
                format!("{name}, listed")
            });
        }
    }
}

fn worked(tally: &mut Tally) {
    for case in CASES.iter().copied().flatten() {
        one(tally, case.name, case.plan, case.printed);
    }
    for case in made() {
        one(tally, case.name, &case.plan, &case.printed);
    }
}

/// Where the runs of a row of forms can end that follow these leaves from one of these
/// places on.
fn ends_of_row(
    plan: &Plan,
    forms: &[Form],
    leaves: &[usize],
    from: BTreeSet<usize>,
) -> BTreeSet<usize> {
    let ends = |from, form| ends_of_form(plan, form, leaves, from);
    forms.iter().fold(from, ends)
}

fn ends_of_form(
    plan: &Plan,
    form: &Form,
    leaves: &[usize],
    from: BTreeSet<usize>,
) -> BTreeSet<usize> {
    let visited = |from: BTreeSet<usize>| -> BTreeSet<usize> {
        let here = from
            .into_iter()
            .filter(|&at| leaves.get(at) == Some(&form.leaf));
        here.map(|at| at + 1).collect()
    };
    let inside = |forms, from| ends_of_row(plan, forms, leaves, from);
    let first = visited(from);
    match &form.kind {
        _ if first.is_empty() => first,
        Kind::Leaf => first,
        Kind::Call(target) => inside(&plan.functions[*target], first),
        Kind::If(then_part, else_part) => {
            let by_then = inside(then_part, first.clone());
            &by_then | &inside(else_part, first)
        }
        Kind::Loop(bound, body) => {
            let (mut all, mut last) = (first.clone(), first);
            for _ in 0..*bound {
                last = visited(inside(body, last));
                if last.is_empty() {
                    break;
                }
                all.extend(&last);
            }
            all
        }
    }
}

/// Whether some run of the plan makes these visits.
fn is_run(plan: &Plan, leaves: &[usize]) -> bool {
    let start = BTreeSet::from([0]);
    let ends = ends_of_row(plan, &plan.functions[plan.main()], leaves, start);
    ends.contains(&leaves.len())
}

/// The first runs: each is one of the plan and short, and comes behind the one before; if
/// these are all, they are as many as there are.
fn in_order(tally: &mut Tally, plan: &Plan) {
    let mut found: Vec<Vec<usize>> = Vec::new();
    let all = ordered_runs::each(plan, MOST_VISITS, |leaves| {
        found.push(leaves.to_vec());
        found.len() < LOOKED_AT
    });
    tally.holds(found.is_sorted_by(|one, next| one < next), || {
        format!("out of order, {}", shown(plan))
    });
    for leaves in &found {
        let right = leaves.len() <= MOST_VISITS && is_run(plan, leaves);
        tally.holds(right, || format!("{leaves:?}, {}", shown(plan)));
    }
    let (found, wanted) = (found.len() as u128, count(plan));
    let right = found == wanted || !all && found < wanted;
    tally.holds(right, || {
        format!("{found} of {wanted} runs, {}", shown(plan))
    });
}

/// Both ways on plans whose runs can be listed.
fn both_ways(tally: &mut Tally, edition: Edition) {
    let mut met = MetRuns::default();
    let mut random = Random::new(41);
    let draws = [gen::small_or_calling_plan, gen::tied_plan, gen::long_plan];
    for round in 0..edition.share(SMALL) * draws.len() {
        let plan = draws[round % draws.len()](&mut random, edition);
        let Some(all) = runs::of_plan(&plan, LISTED) else {
            continue;
        };
        let (found, wanted) = (beginning(&plan, LISTED), lines(&plan, &all));
        let runs = wanted.lines().count() as u128;
        tally.equal((found.lines, found.all), (wanted, true), || shown(&plan));
        tally.equal(count(&plan), runs, || format!("counted, {}", shown(&plan)));
        met.note(&all);
    }
    println!("  {edition}: {met}");
    tally.holds(met.met(edition.share(OFTEN)), || {
        format!("each kind of run of {edition} is met often")
    });
}

/// Plans with many runs, or with none that is short.
fn large(tally: &mut Tally) {
    let mut random = Random::new(42);
    for _ in 0..LARGE {
        for draw in [gen::large_plan, gen::wide_plan] {
            in_order(tally, &draw(&mut random, Edition::First));
        }
    }
    for case in many_runs::plans() {
        let plan = accepted(&case.plan);
        tally.equal(count(&plan), case.count, || case.name.to_string());
        in_order(tally, &plan);
    }
}

pub fn check(tally: &mut Tally) {
    worked(tally);
    for edition in Edition::BOTH {
        both_ways(tally, edition);
    }
    large(tally);
}
