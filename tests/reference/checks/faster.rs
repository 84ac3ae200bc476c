//! A faster run shares no less (02, L8): pairs of sequences of reports on small plans whose
//! runs are listed, the second with no reading later than the first's.

use reference::calls::{Answer, Call, Controller};
use reference::edition::Edition;
use reference::faster::{judge, Met, KINDS};
use reference::gen::{self, Random};
use reference::listed::Listed;
use reference::numbers::Numbers;

use super::tally::Tally;

/// Plans of edition 1 with an accepted release, and the most runs of a plan.
const PLANS: usize = 3_000;
const MOST_RUNS: usize = 200;

/// How often each kind is to be met in edition 1 and in edition 2; 0 where it cannot be.
const LEAST: [[usize; KINDS]; 2] = [
    [
        8_700, 2_200, 21_000, 280, 1_200, 0, 260, 0, 4_300, 0, 4_000, 840, 1_000,
    ],
    [
        6_500, 1_500, 4_500, 85, 400, 370, 130, 220, 1_300, 1_000, 1_400, 280, 400,
    ],
];

/// The answers to these calls, the first on a fresh state.
pub fn answers<N: Numbers>(numbers: &N, calls: &[Call]) -> Vec<Option<Answer>> {
    let mut controller = Controller::new(numbers);
    let answer = |&call: &Call| Some(controller.call(call));
    calls.iter().map(answer).collect()
}

fn of_edition(tally: &mut Tally, edition: Edition) -> Met {
    let mut random = Random::new(35);
    let mut met = Met::default();
    while met.plans < edition.share(PLANS) {
        let plan = gen::small_plan(&mut random, edition);
        let Some(listed) = Listed::new(&plan, MOST_RUNS) else {
            continue;
        };
        let answers = |calls: &[Call]| answers(&listed, calls);
        let holds = &mut |truth: bool, what: &dyn Fn() -> String| tally.holds(truth, what);
        judge(&mut random, &listed, 60, &mut met, [&answers; 2], holds);
    }
    met
}

pub fn check(tally: &mut Tally) {
    for edition in Edition::BOTH {
        let met = of_edition(tally, edition);
        println!("  {edition}: {met}");
        let least = LEAST[edition as usize];
        met.all_met(least, &mut |truth, what| tally.holds(truth, what));
    }
}
