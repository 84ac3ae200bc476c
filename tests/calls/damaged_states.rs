//! States with numbers changed, stacks at which no run stands, idle states, and
//! states on the tables of other plans.

use lent::calls::Call;
use lent::law;
use lent::places::{self, Standings};
use lent::state::{Frame, State, EARLIER, LEAVES, LEVEL, RUNNING, STATE, SUSPENDED};
use lent::tally::Tally;
use reference::composed::Composed;
use reference::deep;
use reference::edition::{editions, Edition};
use reference::gen::{self, Random};
use reference::listed::Listed;
use reference::numbers::Numbers;
use reference::plan::{self, Form, Kind, Plan};
use reference::table::{self, Table};

use super::damage::{any_call, fitting_call, some_state};

/// The most runs of a plan whose runs are listed.
const MOST_RUNS: usize = 300;

/// A small plan with all its numbers and standings read off the list of runs.
struct Small<'a> {
    listed: Listed<'a>,
    composed: Composed<'a>,
    standings: Standings,
    table: Table,
}

impl<'a> Small<'a> {
    fn new(plan: &'a Plan) -> Option<Small<'a>> {
        let listed = Listed::new(plan, MOST_RUNS)?;
        let table = table::table(&listed);
        Some(Small {
            listed,
            composed: Composed::new(plan),
            standings: Standings::new(plan, MOST_RUNS)?,
            table,
        })
    }

    /// Makes a call on any state; what is wanted is read off the list of runs.
    fn call(&self, tally: &mut Tally, group: &str, state: &State, call: Call) {
        let place = self.standings.by_runs(state);
        let wanted = law::outcome(&self.listed, place, state, call);
        tally.call(group, &self.table, state, call, &wanted);
    }

    /// A call that fits the state, and sometimes one that need not.
    fn calls(&self, tally: &mut Tally, random: &mut Random, group: &str, state: &State) {
        let call = match random.chance(80) {
            true => fitting_call(random, &self.composed, state),
            false => any_call(random, self.listed.plan(), state),
        };
        self.call(tally, group, state, call);
    }
}

/// Every number of a running state changed. The call is one that fits the state
/// as it was, so that it is accepted where the change goes unseen.
fn every_number_of_state(tally: &mut Tally, random: &mut Random, small: &Small) {
    let reading = random.pick(&[0, 3, small.listed.plan().deadline]);
    let state = small.standings.state(random, &small.listed);
    let state = state.decided(reading, random.chance(30));
    small.calls(tally, random, "a state as it was", &state);
    for at in 0..STATE {
        let call = fitting_call(random, &small.composed, &state);
        let call = match random.chance(80) {
            true => call,
            false => any_call(random, small.listed.plan(), &state),
        };
        for new in random.others(state.0[at]) {
            let mut changed = state.clone();
            changed.0[at] = new;
            let group = format!("{} {new} in place of {}", State::name(at), state.0[at]);
            small.call(tally, &group, &changed, call);
        }
    }
}

fn states_of(tally: &mut Tally, random: &mut Random, edition: Edition) {
    let (mut plans, mut standings) = (0, 0);
    while plans < edition.share(250) {
        let plan = gen::small_plan(random, edition);
        let Some(small) = Small::new(&plan) else {
            continue;
        };
        plans += 1;
        standings += small.standings.count();
        tally.holds(small.standings.agree(&small.listed), || {
            format!("two histories that lead to one place differ: {plan:?}")
        });
        for _ in 0..2 {
            every_number_of_state(tally, random, &small);
        }
    }
    println!("  {edition}: {plans} plans with {standings} places to stand at");
}

fn states(tally: &mut Tally) {
    for edition in Edition::BOTH {
        states_of(tally, &mut Random::new(86), edition);
    }
}

/// Any stack, its leaves and counts small numbers.
fn any_stack(random: &mut Random, leaves: u64) -> Vec<Frame> {
    let level = 1 + random.index(4);
    (0..level)
        .map(|_| {
            let earlier = random.pick(&[0, 0, 0, 1, 2, 3, 4]);
            (random.below(leaves + 1), earlier)
        })
        .collect()
}

/// A good stack with a frame put in, taken out, or changed.
fn near_stack(random: &mut Random, leaves: u64, mut stack: Vec<Frame>) -> Vec<Frame> {
    let at = random.index(stack.len() + 1);
    let frame = (random.below(leaves + 1), random.below(4));
    match (stack.get_mut(at), random.below(5)) {
        (Some(changed), 0) => changed.0 = frame.0,
        (Some(changed), 1) => changed.1 = frame.1,
        (Some(changed), 2) => changed.1 += 1,
        (Some(_), 3) => {
            stack.remove(at);
        }
        _ => stack.insert(at, frame),
    }
    stack
}

/// Good stacks, near ones and any. The times of a stack at which no run stands are
/// worked out as those of a good one, so that they do not tell.
fn stacks_of(tally: &mut Tally, random: &mut Random, edition: Edition) {
    let mut plans = 0;
    while plans < edition.share(300) {
        let plan = gen::small_plan(random, edition);
        let Some(small) = Small::new(&plan) else {
            continue;
        };
        plans += 1;
        let leaves = plan.leaves().len() as u64;
        let pairs = (0..=leaves).flat_map(|leaf| (0..5).map(move |earlier| (leaf, earlier)));
        let mut all: Vec<Vec<Frame>> = pairs.map(|frame| vec![frame]).collect();
        for _ in 0..100 {
            all.push(any_stack(random, leaves));
            let good = small.standings.state(random, &small.listed);
            let stack = good.stack().unwrap_or_default();
            let times = places::times_along(&small.composed, &stack);
            tally.holds(times[..] == *good.times(), || {
                format!("times along {stack:?} in {plan:?}")
            });
            all.push(near_stack(random, leaves, stack.clone()));
            all.push(stack);
        }
        for stack in all.iter().filter(|stack| stack.len() <= 32) {
            let state = State::standing(stack, &places::times_along(&small.composed, stack));
            small.calls(tally, random, "a stack where no times tell", &state);
        }
    }
}

fn stacks(tally: &mut Tally) {
    for edition in Edition::BOTH {
        stacks_of(tally, &mut Random::new(87), edition);
    }
}

/// Any of the places of a large plan: counts up to the bounds, levels up to 32.
fn places_of(tally: &mut Tally, random: &mut Random, plan: &Plan) {
    let composed = Composed::new(plan);
    let table = table::table(&composed);
    for _ in 0..100 {
        let mut state = some_state(random, &composed);
        let call = fitting_call(random, &composed, &state);
        let wanted = law::on_plan(&composed, &state, call);
        tally.call("a place of a large plan", &table, &state, call, &wanted);
        let level = state.0[LEVEL] as usize;
        let up = random.index(level + 2);
        let any = random.index(STATE);
        let at = random.pick(&[LEVEL, LEAVES + up, EARLIER + up, any]);
        state.0[at] = random.other(state.0[at]);
        let wanted = law::on_plan(&composed, &state, call);
        tally.call("a large plan, state changed", &table, &state, call, &wanted);
    }
}

fn large_states(tally: &mut Tally) {
    for edition in Edition::BOTH {
        let mut random = Random::new(88);
        for plan in &deep::and_large(&mut random, edition, edition.share(40)) {
            places_of(tally, &mut random, plan);
        }
    }
}

/// Idle states are not judged, whatever else they hold.
fn idle_states(tally: &mut Tally) {
    let mut random = Random::new(89);
    for edition in editions(3_000) {
        let plan = gen::small_plan(&mut random, edition);
        let composed = Composed::new(&plan);
        let table = table::table(&composed);
        let mut state = places::some_state(&mut random, &composed);
        if random.chance(50) {
            state.0[SUSPENDED..].fill_with(|| random.next());
        }
        state.0[RUNNING] = 0;
        for call in [Call::Release, any_call(&mut random, &plan, &state)] {
            let wanted = law::on_plan(&composed, &state, call);
            tally.call("an idle state", &table, &state, call, &wanted);
        }
    }
}

// STATES ON OTHER TABLES

/// The state after a release and so many reports, as many as there are.
fn reached(random: &mut Random, composed: &Composed, reports: usize) -> State {
    let mut state = law::on_plan(composed, &State::fresh(), Call::Release).state;
    for _ in 0..reports {
        let call = fitting_call(random, composed, &state);
        if !matches!(call, Call::Report(..)) {
            break;
        }
        state = law::on_plan(composed, &state, call).state;
    }
    state
}

/// Changes one leaf: its costs, its bound, or whether it is a point.
fn change_leaf(random: &mut Random, forms: &mut [Form]) {
    if forms.is_empty() {
        return;
    }
    let at = random.index(forms.len());
    let form = &mut forms[at];
    match (&mut form.kind, random.below(5)) {
        (_, 0) => form.loaded += 1,
        (_, 1) => (form.isolated, form.loaded) = (form.isolated + 1, form.loaded + 1),
        (_, 2) => form.point = !form.point,
        (Kind::Loop(bound, _), 3) => *bound += 1,
        (Kind::Loop(_, body), _) => change_leaf(random, body),
        (Kind::If(then_part, else_part), roll) => match roll {
            3 => change_leaf(random, then_part),
            _ => change_leaf(random, else_part),
        },
        (Kind::Leaf | Kind::Call(_), _) => form.isolated = form.loaded,
    }
}

/// An edition 1 plan in edition 2 with a U of 0, one with that U in edition 1, and any
/// other with a U of one less.
fn next_edition(plan: &Plan) -> Plan {
    Plan {
        resume: plan.resume.map_or(Some(0), |cost| cost.checked_sub(1)),
        ..plan.clone()
    }
}

/// A plan much like another: one leaf changed, or the deadline, or the switch.
fn near_plan(random: &mut Random, plan: &Plan) -> Plan {
    let mut near = plan.clone();
    match random.below(5) {
        0 => near.deadline += 1,
        1 => near.switch += 1,
        _ => {
            let function = random.index(near.functions.len());
            change_leaf(random, &mut near.functions[function]);
        }
    }
    near
}

/// States that a history reached, moved to the table of another plan.
fn moved_states(tally: &mut Tally) {
    let mut random = Random::new(90);
    for edition in editions(3_000) {
        let plan = gen::small_plan(&mut random, edition);
        let composed = Composed::new(&plan);
        let reports = random.index(12);
        let state = reached(&mut random, &composed, reports);
        if !state.is_running() {
            continue;
        }
        for roll in 0..7 {
            let moved = match roll {
                0 => gen::small_plan(&mut random, edition),
                1 => next_edition(&plan),
                _ => near_plan(&mut random, &plan),
            };
            if plan::read(&plan::text(&moved), 512).is_err() {
                continue;
            }
            let table = table::table(&Composed::new(&moved));
            let call = fitting_call(&mut random, &composed, &state);
            let wanted = law::on_table(&table, &state, call);
            tally.call("a state on another table", &table, &state, call, &wanted);
        }
    }
}

pub fn compare_all(tally: &mut Tally) {
    states(tally);
    stacks(tally);
    large_states(tally);
    idle_states(tally);
    moved_states(tally);
}
