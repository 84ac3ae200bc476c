//! Differences in what an accepted release or report answers.

use reference::calls::{margin, Answer, Word, LEAST_MARGIN};
use reference::composed::{Composed, Place};
use reference::numbers::Numbers;
use reference::plan::Plan;

use super::super::calls::Call;
use super::super::law::Outcome;
use super::super::places;
use super::super::state::{EARLIER, LEVEL, SUSPENDED};
use super::{Asked, Difference};

/// The numbers of a decision, and what it was found from.
pub struct Decision<'a> {
    pub plan: &'a Plan,
    pub word: Word,
    pub remaining: u64,
    pub margin: i64,
    late: bool,
    pub releases: bool,
    pub suspended: bool,
    reading: u64,
    stretch: u64,
    pub place: Place,
    pub is_final: bool,
    release_stretch: u64,
    /// The remaining of the last point's first visit.
    first_remaining: u64,
}

impl Decision<'_> {
    /// The word that this margin leads to.
    pub fn weigh(&mut self, margin: i64) {
        self.word = Word::of(self.plan, self.suspended, margin);
    }

    /// The U that comes off, 0 where none does.
    pub fn cost_of_return(&self) -> u64 {
        self.plan.cost_of_return(self.suspended)
    }

    /// What comes off beside the stretch and U, where the decision is final or not.
    fn reserve(&self, is_final: bool) -> u64 {
        match is_final {
            true => 0,
            false => self.remaining + self.plan.switch,
        }
    }

    /// The margin of this need beside U.
    fn margin_of(&self, needed: u64) -> i64 {
        let needed = needed + self.cost_of_return();
        margin(self.plan.deadline, self.reading, needed)
    }

    /// The margin with so much taken off beside the stretch and U.
    pub fn margin_beside(&self, reserve: u64) -> i64 {
        self.margin_of(self.stretch + reserve)
    }

    /// The margin if it were a final decision or not.
    pub fn margin_if(&self, is_final: bool) -> i64 {
        self.margin_beside(self.reserve(is_final))
    }

    pub fn margin_with(&self, stretch: u64) -> i64 {
        self.margin_of(stretch + self.reserve(self.is_final))
    }

    /// D less all the rest, with no regard to what 64 bits hold.
    fn margin_unheld(&self) -> i64 {
        let taken = self.stretch + self.reserve(self.is_final) + self.cost_of_return();
        let left = self.plan.deadline.wrapping_sub(self.reading);
        left.wrapping_sub(taken) as i64
    }
}

fn of_outcome<'a>(asked: &Asked<'a>, outcome: &Outcome) -> Option<Decision<'a>> {
    let Answer::Decision {
        word,
        remaining,
        margin,
        late,
    } = outcome.answer
    else {
        return None;
    };
    let plan = asked.plan?;
    let composed = Composed::new(plan);
    let place = places::by_forms(&composed, &outcome.state)?;
    let mut first = outcome.state.clone();
    first.0[EARLIER + first.0[LEVEL] as usize] = 0;
    let releases = asked.call == Call::Release;
    Some(Decision {
        plan,
        word,
        remaining,
        margin,
        late,
        releases,
        suspended: asked.state.is_suspended() && !releases,
        reading: asked.reading(),
        stretch: composed.stretch_at(&place),
        is_final: composed.is_final(&place),
        place,
        release_stretch: composed.release_stretch(),
        first_remaining: composed.remaining(&places::by_forms(&composed, &first)?),
    })
}

/// The right outcome with its decision changed, if one is made.
pub fn decided(asked: &Asked, change: impl Fn(&mut Decision)) -> Outcome {
    let mut outcome = asked.right();
    if let Some(mut decision) = of_outcome(asked, &outcome) {
        change(&mut decision);
        outcome.state.0[SUSPENDED] = u64::from(!decision.word.others_run());
        outcome.answer = Answer::Decision {
            word: decision.word,
            remaining: decision.remaining,
            margin: decision.margin,
            late: decision.late,
        };
    }
    outcome
}

pub const ALL: &[Difference] = &[
    ("always-goes", |asked| {
        decided(asked, |found| found.word = Word::Go)
    }),
    ("suspends-at-release", |asked| {
        decided(asked, |found| {
            if found.releases {
                found.word = Word::Suspend;
            }
        })
    }),
    ("suspends-unweighed", |asked| {
        decided(asked, |found| {
            if !found.releases && found.word == Word::Go {
                found.word = Word::Suspend;
            }
        })
    }),
    ("echoes", |asked| {
        decided(asked, |found| {
            if !found.releases {
                found.weigh(0);
            }
        })
    }),
    ("switch-left-out", |asked| {
        decided(asked, |found| {
            if !found.is_final {
                found.weigh(found.margin + found.plan.switch as i64);
            }
        })
    }),
    ("stretch-left-out", |asked| {
        decided(asked, |found| {
            found.weigh(found.margin + found.stretch as i64)
        })
    }),
    ("stretch-of-release", |asked| {
        decided(asked, |found| {
            found.margin = found.margin_with(found.release_stretch);
            found.weigh(found.margin);
        })
    }),
    ("suspension-forgotten", |asked| {
        decided(asked, |found| {
            if found.margin >= 0 {
                found.word = Word::Go;
            }
        })
    }),
    ("suspends-again", |asked| {
        decided(asked, |found| {
            if found.word == Word::Stay {
                found.word = Word::Suspend;
            }
        })
    }),
    ("late-at-deadline", |asked| {
        decided(asked, |found| {
            found.late = found.reading >= found.plan.deadline
        })
    }),
    ("never-late", |asked| {
        decided(asked, |found| found.late = false)
    }),
    ("margin-unheld", |asked| {
        decided(asked, |found| found.margin = found.margin_unheld())
    }),
    ("margin-held-early", |asked| {
        decided(asked, |found| {
            if found.margin == LEAST_MARGIN + 1 {
                found.margin = LEAST_MARGIN;
            }
        })
    }),
    ("sign-of-64-bits", |asked| {
        decided(asked, |found| found.weigh(found.margin_unheld()))
    }),
    ("first-remaining", |asked| {
        decided(asked, |found| found.remaining = found.first_remaining)
    }),
];
