//! Differences in what is refused, by which number, and what a refused call does.

use reference::calls::Answer;
use reference::composed::Composed;
use reference::numbers::Numbers;
use reference::plan::Plan;

use super::super::calls::Call;
use super::super::law::{self, ended, Outcome};
use super::super::places;
use super::super::state::{State, EARLIER, LEAVES, LEVEL, READING, RUNNING, TIMES};
use super::{Asked, Difference};

/// The number that the call is refused by; 0 where it is accepted.
fn number(outcome: &Outcome) -> u32 {
    match outcome.answer {
        Answer::Refused(number) => number,
        _ => 0,
    }
}

/// The right outcome, or a refusal by this number where the test says so.
fn instead(asked: &Asked, other: u32, test: impl Fn(u32) -> bool) -> Outcome {
    let right = asked.right();
    match test(number(&right)) {
        true => asked.refused(other),
        false => right,
    }
}

/// The outcome as if the last reading had been 0.
fn after_reading_0(asked: &Asked) -> Outcome {
    let mut state = asked.state.clone();
    state.0[READING] = 0;
    asked.outcome_of(&state, asked.call)
}

/// What is refused by 16 whether or not the reports are in order.
fn astray_first(asked: &Asked) -> Outcome {
    match (number(&asked.right()), after_reading_0(asked)) {
        (16, other) if number(&other) == 17 => other,
        _ => asked.right(),
    }
}

fn backward_passes(asked: &Asked) -> Outcome {
    match number(&asked.right()) {
        16 => after_reading_0(asked),
        _ => asked.right(),
    }
}

/// The number of the point cut to 32 bits.
fn point_cut(asked: &Asked) -> Outcome {
    match asked.call {
        Call::Report(point, reading) => {
            let cut = Call::Report(point & 0xffff_ffff, reading);
            asked.outcome_of(asked.state, cut)
        }
        _ => asked.right(),
    }
}

fn is_silent(asked: &Asked) -> bool {
    let leaves = asked.plan.map_or(0, |plan| plan.leaves().len());
    matches!(asked.call, Call::Report(leaf, _) if leaf < leaves as u64)
}

/// An end in the middle of a run.
fn end_anywhere(asked: &Asked) -> Outcome {
    let right = asked.right();
    let (Call::End(reading), 17, Some(plan)) = (asked.call, number(&right), asked.plan) else {
        return right;
    };
    ended(plan, asked.state, reading)
}

/// A loop visited once more than its bound allows, as if its last visit had not
/// been.
fn bound_passed(asked: &Asked) -> Outcome {
    let right = asked.right();
    let (Call::Report(leaf, _), 17, Some(plan)) = (asked.call, number(&right), asked.plan) else {
        return right;
    };
    let mut before = asked.state.clone();
    let level = before.0[LEVEL] as usize;
    if before.0[LEAVES + level] != leaf || before.0[EARLIER + level] == 0 {
        return right;
    }
    before.0[EARLIER + level] -= 1;
    let composed = Composed::new(plan);
    let Some(place) = places::by_forms(&composed, &before) else {
        return right;
    };
    before.0[TIMES..].copy_from_slice(&composed.times(&place));
    let mut wrong = asked.outcome_of(&before, asked.call);
    if number(&wrong) == 0 {
        wrong.state.0[EARLIER + level] += 1;
    }
    wrong
}

/// How much D is above total, T and what is taken off more; below 0 where it is not.
fn spare(asked: &Asked, more: fn(&Composed) -> u64) -> i64 {
    asked.plan.map_or(0, |plan| {
        let composed = Composed::new(plan);
        let taken = composed.total() + plan.switch + more(&composed);
        plan.deadline as i64 - taken as i64
    })
}

/// A release that is not refused by 13 where it is final and its condition holds. A
/// final decision does not weigh T, so without it the answer is the same.
fn unfit_by_condition(asked: &Asked) -> Outcome {
    let right = asked.right();
    let (Call::Release, 13, Some(plan)) = (asked.call, number(&right), asked.plan) else {
        return right;
    };
    let plan = Plan {
        switch: 0,
        ..plan.clone()
    };
    let composed = Composed::new(&plan);
    let release = composed.release();
    let holds = composed.is_final(&release) && composed.needed(&release) <= plan.deadline;
    match holds {
        true => law::on_plan(&composed, asked.state, asked.call),
        false => right,
    }
}

/// A refused call that leaves another state.
fn refusal_leaves(asked: &Asked, test: impl Fn(u32) -> bool, state: State) -> Outcome {
    let mut outcome = asked.right();
    if test(number(&outcome)) {
        outcome.state = state;
    }
    outcome
}

pub const ALL: &[Difference] = &[
    ("refuses-releases", |asked| {
        let releases = asked.call == Call::Release;
        instead(asked, 13, |number| number == 0 && releases)
    }),
    ("unfit-at-deadline", |asked| {
        let unfit = asked.call == Call::Release && spare(asked, |_| 0) <= 0;
        instead(asked, 13, |number| number == 0 && unfit)
    }),
    ("unfit-by-stretch", |asked| {
        let stretch = |composed: &Composed| composed.release_stretch();
        let unfit = asked.call == Call::Release && spare(asked, stretch) < 0;
        instead(asked, 13, |number| number == 0 && unfit)
    }),
    ("unfit-by-resume", |asked| {
        let resume = |composed: &Composed| composed.plan().cost_of_return(true);
        let unfit = asked.call == Call::Release && spare(asked, resume) < 0;
        instead(asked, 13, |number| number == 0 && unfit)
    }),
    ("unfit-by-condition", unfit_by_condition),
    ("equal-refused", |asked| {
        let equal = asked.call != Call::Release && asked.reading() == asked.state.reading();
        instead(asked, 16, |number| number == 0 && equal)
    }),
    ("16-before-15", |asked| {
        let back = asked.reading() < asked.state.reading();
        instead(asked, 16, |number| number == 15 && back)
    }),
    ("17-before-16", astray_first),
    ("12-before-11", |asked| {
        let busy = asked.call == Call::Release && asked.state.is_running();
        instead(asked, 12, |number| number == 11 && busy)
    }),
    ("14-before-11", |asked| {
        let idle = asked.call != Call::Release && !asked.state.is_running();
        instead(asked, 14, |number| number == 11 && idle)
    }),
    ("silent-as-point", |asked| {
        let silent = is_silent(asked);
        instead(asked, 17, |number| number == 15 && silent)
    }),
    ("backward-passes", backward_passes),
    ("point-cut", point_cut),
    ("end-anywhere", end_anywhere),
    ("bound-passed", bound_passed),
    ("refusal-moves-reading", |asked| {
        let mut state = asked.state.clone();
        state.0[READING] = asked.reading().max(state.reading());
        refusal_leaves(asked, |number| number >= 15, state)
    }),
    ("refusal-makes-yes-1", |asked| {
        let mut state = asked.state.clone();
        state.0[RUNNING] = state.0[RUNNING].min(1);
        refusal_leaves(asked, |number| number > 0, state)
    }),
    ("refusal-makes-fresh", |asked| {
        refusal_leaves(asked, |number| number == 17, State::fresh())
    }),
];
