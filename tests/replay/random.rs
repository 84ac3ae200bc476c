//! Random logs of random plans, as they are and damaged.

use std::collections::BTreeMap;

use logs::random_logs::random_log;
use logs::tested::Tested;
use reference::composed::Composed;
use reference::damage;
use reference::edition::Edition;
use reference::gen::{self, Random};
use reference::numbers::Numbers;
use reference::plan::{self, Plan};

const SMALL_PLANS: usize = 3_000;
const LARGE_PLANS: usize = 300;

/// Every kind of line that is printed, refusals by their numbers, the one of edition 2
/// alone last, and how often each must be met. No log is refused by 11.
const KINDS: [&str; 17] = [
    "go",
    "suspend",
    "stay",
    "resume",
    "ended",
    "sums of nothing",
    "sums, all shared",
    "sums, all suspended",
    "sums of both",
    "refused 12",
    "refused 13",
    "refused 14",
    "refused 15",
    "refused 16",
    "refused 17",
    "refused 18",
    "resume at a report",
];
const OFTEN: usize = 100;

/// How often each kind of line was to be printed.
type Met = BTreeMap<String, usize>;

fn kind(line: &str) -> &str {
    let fields: Vec<&str> = line.split(' ').collect();
    match fields.as_slice() {
        ["refused", _] => line,
        ["resume", _, _, _] => "resume at a report",
        ["0", "0", "0"] => "sums of nothing",
        [_, "0", _] => "sums, all shared",
        ["0", _, _] => "sums, all suspended",
        [_, _, _] => "sums of both",
        _ => fields[0],
    }
}

/// A log of the plan as it is, and damaged.
fn of_plan(tested: &mut Tested, random: &mut Random, met: &mut Met, plan: &Plan) {
    let text = plan::text(plan);
    let composed = Composed::new(plan);
    // Where no release is accepted, a few lines say it all.
    let unfit = composed.total() + plan.switch > plan.deadline;
    let length = random.pick(&[50, 300, 1_000, if unfit { 50 } else { 5_000 }]);
    let log = random_log(random, &composed, length);
    for line in tested.log("a random log", &text, &log).lines() {
        *met.entry(kind(line).to_string()).or_default() += 1;
    }
    let log = damage::damaged(random, &log);
    tested.log("a damaged log", &text, &log);
}

fn of_plans(tested: &mut Tested, edition: Edition) {
    let mut random = Random::new(101);
    let mut met = Met::new();
    for _ in 0..edition.share(SMALL_PLANS) {
        let plan = gen::small_plan(&mut random, edition);
        of_plan(tested, &mut random, &mut met, &plan);
    }
    for _ in 0..edition.share(LARGE_PLANS) {
        let plan = gen::large_plan(&mut random, edition);
        of_plan(tested, &mut random, &mut met, &plan);
    }
    println!("lines of random logs, {edition}: {met:?}");
    let kinds = match edition {
        Edition::First => &KINDS[..KINDS.len() - 1],
        Edition::Second => &KINDS,
    };
    // A kind of line that is hardly met is hardly compared.
    for &kind in kinds {
        let enough = met.get(kind).is_some_and(|&count| count >= OFTEN);
        tested.count.holds(enough, &format!("{kind} is met often"));
    }
}

pub fn compare_all(tested: &mut Tested) {
    for edition in Edition::BOTH {
        of_plans(tested, edition);
    }
}
