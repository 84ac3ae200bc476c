//! What is measured: each call on each plan, with the memory it begins from.

use std::hint::black_box;

use crate::memory::{Head, Leaf, Reply, State, CALL};
use crate::plans::Plan;
use crate::sides::{Side, REFERENCE};

/// Every report and end has this reading.
const READING: u64 = 1;

#[derive(Clone, Copy, PartialEq, Eq)]
pub enum Call {
    Read,
    Release,
    Report(u64),
    End,
}

pub const NAMES: [&str; 4] = ["read", "release", "report", "end"];

impl Call {
    pub fn name(self) -> &'static str {
        match self {
            Call::Read => NAMES[0],
            Call::Release => NAMES[1],
            Call::Report(_) => NAMES[2],
            Call::End => NAMES[3],
        }
    }
}

pub struct Job<'a> {
    pub plan: &'a Plan,
    pub call: Call,
    /// Where the state begins.
    pub before: State,
}

/// The table that is lent to a job.
pub struct Lent {
    pub row: Vec<Leaf>,
    pub head: Head,
}

impl Job<'_> {
    pub fn lent(&self) -> Lent {
        Lent {
            row: self.plan.row.clone(),
            head: self.plan.head,
        }
    }

    /// Makes the call. A reading of the plan answers the ruling's numbers in the place of word and number.
    pub fn run(&self, side: &Side, lent: &mut Lent, state: &mut State) -> Reply {
        let (row, head) = (&mut lent.row[..], &mut lent.head);
        match self.call {
            Call::Read => {
                let ruling = (side.read)(black_box(&self.plan.text), black_box(row), head);
                Reply {
                    word: ruling.number,
                    number: ruling.line,
                    remaining: 0,
                    margin: 0,
                    late: 0,
                }
            }
            Call::Release => (side.release)(black_box(row), head, state),
            Call::Report(point) => (side.report)(black_box(row), head, state, point, READING),
            Call::End => (side.end)(black_box(row), head, state, READING),
        }
    }
}

fn released(plan: &Plan) -> State {
    let mut state = State::FRESH;
    let reply = (REFERENCE.release)(&plan.row, &plan.head, &mut state);
    assert!(reply.word > 0, "a release of the benchmark is refused");
    state
}

/// The state after the first of these points that can come next, and that point.
fn next(plan: &Plan, state: &State, points: impl Iterator<Item = u64>) -> Option<(State, u64)> {
    for point in points {
        let mut after = *state;
        let reply = (REFERENCE.report)(&plan.row, &plan.head, &mut after, point, READING);
        if reply.word > 0 {
            return Some((after, point));
        }
    }
    None
}

fn last(state: &State) -> Option<u64> {
    match state.level {
        0 => None,
        level => Some(state.leaves[level as usize]),
    }
}

/// The points behind the last one in text order, and all of them behind a call.
fn onward(plan: &Plan, state: &State) -> std::ops::Range<u64> {
    let leaves = plan.leaves as u64;
    match last(state) {
        Some(leaf) if plan.row[leaf as usize].kind != CALL => leaf + 1..leaves,
        _ => 0..leaves,
    }
}

/// Walks on through the text as far as it goes. Gives the state before the last report at the highest level, that point, and where the walk stops.
fn farthest(plan: &Plan) -> (State, u64, State) {
    let mut state = released(plan);
    let (mut before, mut point, mut level) = (state, 0, 0);
    while let Some((after, leaf)) = next(plan, &state, onward(plan, &state)) {
        if after.level >= level {
            (before, point, level) = (state, leaf, after.level);
        }
        state = after;
    }
    (before, point, state)
}

/// A state from which the run can end: out of the loops that are open, and on.
fn ending(plan: &Plan, mut state: State) -> State {
    let leaves = plan.leaves as u64;
    loop {
        let reply = (REFERENCE.end)(&plan.row, &plan.head, &mut state.clone(), READING);
        if reply.word > 0 {
            return state;
        }
        let behind = last(&state).map_or(0, |leaf| plan.row[leaf as usize].after);
        let stack = state.leaves[1..=state.level as usize].to_vec();
        let points = (behind..leaves)
            .chain(stack.into_iter().rev())
            .chain(0..leaves);
        state = next(plan, &state, points)
            .expect("a run of the benchmark goes on")
            .0;
    }
}

/// The four calls on a plan.
pub fn jobs(plan: &Plan) -> Vec<Job<'_>> {
    let (mut before_report, point, stop) = farthest(plan);
    // In edition 2 the others are suspended, so that the report decides whether they come back.
    before_report.suspended = (plan.head.edition == 2).into();
    let job = |call, before| Job { plan, call, before };
    vec![
        job(Call::Read, State::FRESH),
        job(Call::Release, State::FRESH),
        job(Call::Report(point), before_report),
        job(Call::End, ending(plan, stop)),
    ]
}
