//! What is changed in tables and states, and calls to make on them.

use lent::calls::Call;
use lent::places;
use lent::state::State;
use reference::composed::Composed;
use reference::gen::Random;
use reference::numbers::Numbers;
use reference::plan::Plan;
use reference::table::{Table, PARTS};

/// Changes one number of a table, if the part that is picked has some.
pub fn change_one(random: &mut Random, table: &mut Table) {
    let part = random.index(PARTS);
    if let Some(at) = table.place(random, part) {
        let number = table.number(at);
        *number = random.other(*number);
    }
}

/// Puts so many records behind the plan's own: what they hold is free.
pub fn lengthen(random: &mut Random, table: &mut Table, more: usize) {
    let behind = (0..more).map(|_| std::array::from_fn(|_| random.next()));
    table.row.extend(behind);
}

/// A call that a state like this one often accepts.
pub fn fitting_call(random: &mut Random, composed: &Composed, state: &State) -> Call {
    let reading = state.reading().saturating_add(random.below(3));
    let place = places::by_forms(composed, state);
    let Some(place) = place.filter(|_| state.is_running()) else {
        return Call::Release;
    };
    let points: Vec<usize> = composed.next_points(&place).into_iter().collect();
    let ends = composed.can_end(&place);
    match (ends, points.is_empty()) {
        (true, false) if random.chance(30) => Call::End(reading),
        (true, true) => Call::End(reading),
        (_, false) => Call::Report(random.pick(&points) as u64, reading),
        (false, true) => Call::Release,
    }
}

/// Any call, some of them refused whatever table and state are.
pub fn any_call(random: &mut Random, plan: &Plan, state: &State) -> Call {
    let reading = random.pick(&[0, state.reading(), plan.deadline, u64::MAX]);
    let leaf = random.below(plan.leaves().len() as u64 + 1);
    match random.below(3) {
        0 => Call::Release,
        1 => Call::End(reading),
        _ => Call::Report(leaf, reading),
    }
}

/// A running state that is good, with a reading and the others suspended or not.
pub fn some_state(random: &mut Random, composed: &Composed) -> State {
    let reading = random.pick(&[0, 0, 1, 7, composed.plan().deadline]);
    places::some_state(random, composed).decided(reading, random.chance(30))
}
