//! The worst cases of random small plans, on the reference's own controller.

use reference::worst::{judge_random, on_reference};

use super::tally::Tally;

const PLANS: usize = 6_000;
const OFTEN: usize = 100;

pub fn check(tally: &mut Tally) {
    judge_random(33, PLANS, OFTEN, &on_reference, &mut |truth, what| {
        tally.holds(truth, what)
    });
}
