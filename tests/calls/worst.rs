//! The worst cases of small plans: every run with every visit at its bound ends by the
//! deadline, after a final decision with margin 0 some run ends there, and with a
//! deadline a tick shorter that decision suspends.

use lent::calls::made;
use lent::state::State;
use lent::tally::Tally;
use reference::composed::Composed;
use reference::plan::Plan;
use reference::table;
use reference::worst::{judge_random, Calls};

const PLANS: usize = 1_500;
const OFTEN: usize = 40;

/// Delivered calls on the table of this plan.
fn ready(plan: &Plan, play: &mut dyn FnMut(&mut Calls)) {
    let table = table::table(&Composed::new(plan));
    let mut state = State::fresh();
    play(&mut |call| made(&table, &mut state, call)?.answer(call));
}

pub fn compare_all(tally: &mut Tally) {
    judge_random(93, PLANS, OFTEN, &ready, &mut |truth, what| {
        tally.holds(truth, what)
    });
}
