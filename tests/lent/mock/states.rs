//! Differences in the state that an accepted call leaves, and in the words of an
//! end.

use std::ops::Range;

use reference::calls::{Answer, Word};

use super::super::calls::Call;
use super::super::law::Outcome;
use super::super::state::{
    State, EARLIER, LEAVES, LEVEL, LEVELS, READING, RUNNING, SUSPENDED, TIMES,
};
use super::{Asked, Difference};

/// The right outcome, changed where a call of this kind is accepted.
fn accepted(asked: &Asked, kind: fn(Call) -> bool, change: impl Fn(&mut Outcome)) -> Outcome {
    let mut outcome = asked.right();
    if kind(asked.call) && !matches!(outcome.answer, Answer::Refused(_)) {
        change(&mut outcome);
    }
    outcome
}

/// The same with these numbers of the state as they were.
fn kept(asked: &Asked, kind: fn(Call) -> bool, numbers: Range<usize>) -> Outcome {
    accepted(asked, kind, |outcome| {
        let numbers = numbers.clone();
        outcome.state.0[numbers.clone()].copy_from_slice(&asked.state.0[numbers]);
    })
}

/// The same with those above the level as they were, of lists beginning there.
fn kept_above(asked: &Asked, lists: &[usize]) -> Outcome {
    accepted(asked, report, |outcome| {
        let level = level(&outcome.state);
        for &first in lists {
            let above = first + level + 1..first + LEVELS;
            outcome.state.0[above.clone()].copy_from_slice(&asked.state.0[above]);
        }
    })
}

/// The same with a number for yes other than 1 as it was.
fn yes_kept(asked: &Asked, at: usize) -> Outcome {
    accepted(
        asked,
        |_| true,
        |outcome| {
            if outcome.state.0[at] == 1 {
                outcome.state.0[at] = asked.state.0[at].max(1);
            }
        },
    )
}

fn level(state: &State) -> usize {
    state.0[LEVEL] as usize
}

fn release(call: Call) -> bool {
    call == Call::Release
}

fn report(call: Call) -> bool {
    matches!(call, Call::Report(..))
}

fn end(call: Call) -> bool {
    matches!(call, Call::End(_))
}

fn end_word(asked: &Asked, always: Word) -> Outcome {
    accepted(asked, end, |outcome| {
        if let Answer::End { word, .. } = &mut outcome.answer {
            *word = always;
        }
    })
}

pub const ALL: &[Difference] = &[
    ("unmoved", |asked| {
        accepted(asked, report, |outcome| outcome.state = asked.state.clone())
    }),
    ("reading-unmoved", |asked| {
        kept(asked, report, READING..READING + 1)
    }),
    ("frames-above-kept", |asked| {
        kept_above(asked, &[LEAVES, EARLIER])
    }),
    ("times-above-kept", |asked| kept_above(asked, &[TIMES])),
    ("frames-of-0-cleared", |asked| {
        accepted(asked, report, |outcome| {
            (outcome.state.0[LEAVES], outcome.state.0[EARLIER]) = (0, 0);
        })
    }),
    ("earlier-unmoved", |asked| {
        accepted(asked, report, |outcome| {
            outcome.state.0[EARLIER + level(&outcome.state)] = 0;
        })
    }),
    ("time-of-0-moved", |asked| {
        accepted(asked, report, |outcome| {
            outcome.state.0[TIMES] = outcome.state.0[TIMES + level(&outcome.state)];
        })
    }),
    ("release-keeps-reading", |asked| {
        kept(asked, release, READING..READING + 1)
    }),
    ("release-keeps-frames", |asked| {
        kept(asked, release, LEAVES..TIMES)
    }),
    ("end-keeps-running", |asked| {
        accepted(asked, end, |outcome| outcome.state = asked.state.clone())
    }),
    ("end-keeps-reading", |asked| {
        kept(asked, end, READING..READING + 1)
    }),
    ("end-keeps-suspended", |asked| {
        kept(asked, end, SUSPENDED..SUSPENDED + 1)
    }),
    ("return-keeps-suspended", |asked| {
        let resumes = |outcome: &Outcome| match outcome.answer {
            Answer::Decision { word, .. } => word == Word::Resume,
            _ => false,
        };
        accepted(asked, report, |outcome| {
            outcome.state.0[SUSPENDED] |= u64::from(resumes(outcome));
        })
    }),
    ("running-kept", |asked| yes_kept(asked, RUNNING)),
    ("suspended-kept", |asked| yes_kept(asked, SUSPENDED)),
    ("resume-always", |asked| end_word(asked, Word::Resume)),
    ("ended-always", |asked| end_word(asked, Word::Ended)),
];
