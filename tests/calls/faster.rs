//! A faster run shares no less (02, L8): pairs of sequences of calls with the same points,
//! the second with no reading later than the first's. Wherever the others run after a call
//! of the first, they run after it in the second.

use lent::calls::{made, Call};
use lent::state::State;
use lent::tally::Tally;
use reference::calls::Answer;
use reference::composed::Composed;
use reference::deep;
use reference::edition::Edition;
use reference::faster::{judge, Met, KINDS};
use reference::gen::{self, Random};
use reference::plan::Plan;
use reference::table::{self, Table};

use super::damage;

/// Small plans of edition 1 with an accepted release, and large plans of each edition.
const SMALL: usize = 6_000;
const LARGE: usize = 80;

/// How often each kind is to be met on small plans of edition 1 and of edition 2, and on
/// large ones; 0 where it cannot be.
const OF_SMALL: [[usize; KINDS]; 2] = [
    [
        18_000, 4_600, 51_000, 600, 2_600, 0, 530, 0, 9_300, 0, 8_200, 1_700, 2_100,
    ],
    [
        16_000, 4_000, 17_000, 170, 1_000, 1_100, 390, 600, 3_500, 2_200, 3_000, 610, 840,
    ],
];
const OF_LARGE: [[usize; KINDS]; 2] = [
    [380, 80, 10_000, 7, 40, 0, 14, 0, 290, 0, 150, 29, 50],
    [950, 320, 10_000, 14, 88, 100, 38, 43, 240, 76, 120, 27, 43],
];

/// The answers to these calls on a table, the first on a fresh state.
pub fn answers(table: &Table, calls: &[Call]) -> Vec<Option<Answer>> {
    let mut state = State::fresh();
    let answer = |&call: &Call| made(table, &mut state, call)?.answer(call);
    calls.iter().map(answer).collect()
}

/// Pairs on a plan, their first and their second sequences on tables of their own, perhaps
/// with records behind those of the plan.
fn pairs(tally: &mut Tally, random: &mut Random, met: &mut Met, plan: &Plan, long: usize) {
    let composed = Composed::new(plan);
    let tables = [(); 2].map(|()| {
        let mut table = table::table(&composed);
        let more = random.pick(&[0, 0, 1, 8, 9]);
        damage::lengthen(random, &mut table, more);
        table
    });
    let [first, second] = tables
        .each_ref()
        .map(|table| |calls: &[Call]| answers(table, calls));
    let holds = &mut |truth: bool, what: &dyn Fn() -> String| tally.holds(truth, what);
    judge(random, &composed, long, met, [&first, &second], holds);
}

/// Pairs on small plans, and on large and deep ones.
fn of_edition(tally: &mut Tally, edition: Edition) -> [Met; 2] {
    let mut random = Random::new(95);
    let (mut small, mut large) = (Met::default(), Met::default());
    while small.plans < edition.share(SMALL) {
        let plan = gen::small_plan(&mut random, edition);
        pairs(tally, &mut random, &mut small, &plan, 60);
    }
    for plan in &deep::and_large(&mut random, edition, LARGE) {
        pairs(tally, &mut random, &mut large, plan, 100);
    }
    [small, large]
}

pub fn compare_all(tally: &mut Tally) {
    for edition in Edition::BOTH {
        let [small, large] = of_edition(tally, edition);
        println!("  {edition}, small plans: {small}");
        println!("  {edition}, large plans: {large}");
        for (met, least) in [(small, OF_SMALL), (large, OF_LARGE)] {
            let least = least[edition as usize];
            met.all_met(least, &mut |truth, what| tally.holds(truth, what));
        }
    }
}
