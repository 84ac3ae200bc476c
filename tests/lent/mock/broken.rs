//! Differences in refusal 11 of states: numbers that are not looked at, or are
//! looked at where they should not be.

use std::ops::Range;

use reference::composed::Composed;
use reference::numbers::Numbers;
use reference::plan::{Kind, Plan, MOST_LEVEL};
use reference::records::{self, POINT};

use super::super::law::{self, Outcome};
use super::super::places;
use super::super::state::{
    State, EARLIER, LEAVES, LEVEL, LEVELS, RUNNING, STATE, SUSPENDED, TIMES,
};
use super::{Asked, Difference};

/// The outcome for the state with numbers set right that are not looked at.
fn set_right(asked: &Asked, right: impl Fn(&Composed, &mut State)) -> Outcome {
    let mut state = asked.state.clone();
    if let Some(plan) = asked.plan.filter(|_| state.is_running()) {
        right(&Composed::new(plan), &mut state);
    }
    asked.outcome_of(&state, asked.call)
}

/// The same where only times are not looked at, those of these levels, which may
/// depend on the level of the state.
fn set_times(asked: &Asked, levels: fn(usize) -> Range<usize>) -> Outcome {
    set_right(asked, |composed, state| {
        if let Some(place) = places::by_forms(composed, state) {
            let levels = levels(state.0[LEVEL] as usize);
            let right = &composed.times(&place)[levels.clone()];
            state.0[TIMES + levels.start..TIMES + levels.end].copy_from_slice(right);
        }
    })
}

/// The same where counts are not looked at, but times are by them: the counts of each
/// form of the stack are brought down to the most that is given, with the times.
fn set_counts(asked: &Asked, most: fn(&Kind, bool) -> u64) -> Outcome {
    set_right(asked, |composed, state| {
        let Some(stack) = state.stack() else {
            return;
        };
        if places::times_along(composed, &stack)[..] != *state.times() {
            return;
        }
        let leaves = composed.plan().leaves();
        for (at, &(leaf, earlier)) in stack.iter().enumerate() {
            if let Some((_, form)) = leaves.get(leaf as usize) {
                let most = most(&form.kind, at + 1 < stack.len());
                state.0[EARLIER + 1 + at] = earlier.min(most);
            }
        }
        let stack = state.stack().unwrap_or_default();
        let times = places::times_along(composed, &stack);
        state.0[TIMES..].copy_from_slice(&times);
    })
}

/// The plan with every leaf a point.
fn all_points(plan: &Plan) -> Plan {
    let mut row = records::row(plan);
    row.iter_mut().for_each(|record| record[POINT] = 1);
    let bounds = records::bounds(plan);
    let functions = records::functions(&row, &bounds, plan.functions.len());
    Plan {
        functions: functions.unwrap_or_default(),
        ..plan.clone()
    }
}

/// Frames of silent leaves are taken for those of points.
fn silent_frames(asked: &Asked) -> Outcome {
    let Some(plan) = asked.plan else {
        return asked.right();
    };
    let points = all_points(plan);
    let place = places::by_forms(&Composed::new(&points), asked.state);
    law::outcome(&Composed::new(plan), place, asked.state, asked.call)
}

/// Refused by 11 where numbers that mean nothing are not 0.
fn judged(asked: &Asked, running: bool, mut numbers: impl Iterator<Item = usize>) -> Outcome {
    let looked_at = asked.state.is_running() == running;
    match looked_at && numbers.any(|at| asked.state.0[at] != 0) {
        true => asked.refused(11),
        false => asked.right(),
    }
}

fn above_level(state: &State) -> impl Iterator<Item = usize> {
    let level = state.0[LEVEL].min(MOST_LEVEL as u64) as usize;
    let above = |first: usize| first + level + 1..first + LEVELS;
    above(LEAVES).chain(above(EARLIER))
}

/// A number for true other than 1 taken for false.
fn one_is_true(asked: &Asked, at: usize) -> Outcome {
    let mut state = asked.state.clone();
    state.0[at] = u64::from(state.0[at] == 1);
    asked.outcome_of(&state, asked.call)
}

pub const ALL: &[Difference] = &[
    ("idle-judged", |asked| {
        judged(asked, false, SUSPENDED..STATE)
    }),
    ("frames-above-judged", |asked| {
        judged(asked, true, above_level(asked.state))
    }),
    ("frames-of-0-judged", |asked| {
        judged(asked, true, [LEAVES, EARLIER].into_iter())
    }),
    ("times-unjudged", |asked| set_times(asked, |_| 0..LEVELS)),
    ("time-of-0-unjudged", |asked| set_times(asked, |_| 0..1)),
    ("times-below-unjudged", |asked| {
        set_times(asked, |level| 1.min(level)..level)
    }),
    ("time-of-level-unjudged", |asked| {
        set_times(asked, |level| level..level + 1)
    }),
    ("times-above-unjudged", |asked| {
        set_times(asked, |level| level + 1..LEVELS)
    }),
    ("counts-unjudged", |asked| {
        set_counts(asked, |kind, inside| match kind {
            Kind::Loop(bound, _) => bound - u64::from(inside),
            _ => u64::MAX,
        })
    }),
    ("counts-inside-unjudged", |asked| {
        set_counts(asked, |kind, inside| match kind {
            Kind::Loop(bound, _) if inside => bound - 1,
            _ => u64::MAX,
        })
    }),
    ("counts-of-others-unjudged", |asked| {
        set_counts(asked, |kind, _| match kind {
            Kind::Loop(..) => u64::MAX,
            _ => 0,
        })
    }),
    ("silent-frames", silent_frames),
    ("level-cut", |asked| {
        set_right(asked, |_, state| {
            state.0[LEVEL] = state.0[LEVEL].min(MOST_LEVEL as u64);
        })
    }),
    ("running-is-one", |asked| one_is_true(asked, RUNNING)),
    ("suspended-is-one", |asked| one_is_true(asked, SUSPENDED)),
];
