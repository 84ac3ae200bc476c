//! Differences by which a faster run can share less (02, L8). None of them lets a deadline
//! pass: the others are suspended only where T still fits, and run against the rules only
//! where the deadline has passed already.

use std::cell::Cell;

use reference::calls::{Answer, LEAST_MARGIN};

use super::super::law::Outcome;
use super::super::state::SUSPENDED;
use super::decisions::{decided, Decision};
use super::{Asked, Difference};

/// The right outcome with the others suspended by some reports after which they are to run
/// and T still fits.
fn suspending(asked: &Asked, test: impl Fn(&Decision) -> bool) -> Outcome {
    decided(asked, |found| {
        let fits = found.margin_beside(found.plan.switch) >= 0;
        if !found.releases && found.word.others_run() && fits && test(found) {
            found.weigh(-1);
        }
    })
}

/// The right outcome with some decisions weighed as if the margin were 0.
fn as_if_0(asked: &Asked, test: impl Fn(&Decision) -> bool) -> Outcome {
    decided(asked, |found| {
        if test(found) {
            found.weigh(0);
        }
    })
}

/// How far the reading is from the last one.
fn step(asked: &Asked) -> u64 {
    asked.reading().saturating_sub(asked.state.reading())
}

thread_local! {
    /// The reading of the latest decision, and whether the others are suspended after it;
    /// both are kept from one release to the next.
    static LATEST: Cell<(u64, bool)> = const { Cell::new((0, false)) };
    /// Whether the latest call was refused.
    static REFUSED: Cell<bool> = const { Cell::new(false) };
}

/// The right outcome with the decision of a release changed by the latest before it.
fn remembering(asked: &Asked, change: impl Fn(&mut Decision, u64, bool)) -> Outcome {
    decided(asked, |found| {
        let (reading, suspended) = LATEST.get();
        if found.releases {
            change(found, reading, suspended);
        }
        LATEST.set((asked.reading(), !found.word.others_run()));
    })
}

/// The right outcome with the others suspended by reports straight behind a refused call.
fn after_refusal(asked: &Asked) -> Outcome {
    let outcome = suspending(asked, |_| REFUSED.get());
    REFUSED.set(matches!(outcome.answer, Answer::Refused(_)));
    outcome
}

/// The right outcome with the mark of suspension kept by an end, and the others suspended by
/// a release where it stands.
fn kept_by_end(asked: &Asked) -> Outcome {
    let suspended = asked.state.is_suspended();
    let mut outcome = decided(asked, |found| {
        if found.releases && suspended {
            found.weigh(-1);
        }
    });
    if matches!(outcome.answer, Answer::End { .. }) {
        outcome.state.0[SUSPENDED] = u64::from(suspended);
    }
    outcome
}

pub const ALL: &[Difference] = &[
    ("suspends-at-even-readings", |asked| {
        suspending(asked, |found| {
            !found.is_final && asked.reading() % 2 == 0 && found.margin >= 8
        })
    }),
    ("suspends-at-even-final", |asked| {
        suspending(asked, |found| {
            found.is_final && asked.reading() % 2 == 0 && found.margin >= 3
        })
    }),
    ("suspends-with-time-to-spare-in-edition-1", |asked| {
        suspending(asked, |found| {
            found.plan.resume.is_none() && found.margin > found.remaining as i64
        })
    }),
    ("suspends-beside-spare-records", |asked| {
        suspending(asked, |_| asked.has_spare_records())
    }),
    ("suspends-after-refusal", after_refusal),
    ("stays-after-short-steps", |asked| {
        suspending(asked, |found| found.suspended && step(asked) < 4)
    }),
    ("held-goes", |asked| {
        as_if_0(asked, |found| found.margin == LEAST_MARGIN)
    }),
    ("returns-when-late", |asked| {
        as_if_0(asked, |found| {
            found.suspended && asked.reading() > found.plan.deadline
        })
    }),
    ("suspension-kept-by-end", kept_by_end),
    ("suspension-remembered", |asked| {
        remembering(asked, |found, _, suspended| {
            if suspended {
                found.weigh(-1);
            }
        })
    }),
    ("release-by-latest-reading", |asked| {
        remembering(asked, |found, reading, _| {
            found.weigh(found.margin.saturating_sub_unsigned(reading))
        })
    }),
];
