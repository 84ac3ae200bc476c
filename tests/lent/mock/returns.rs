//! Differences in when the others come back, and in the margins that U comes off (02, L7).

use reference::calls::Word;

use super::super::law::Outcome;
use super::decisions::{decided, Decision};
use super::{Asked, Difference};

/// The right outcome with its decision changed where the others were suspended before it.
fn suspended(asked: &Asked, change: impl Fn(&mut Decision)) -> Outcome {
    decided(asked, |found| {
        if found.suspended {
            change(found);
        }
    })
}

/// The same with so much less in the rule of return alone; the margin is right.
fn weighed_less(asked: &Asked, less: impl Fn(&Decision) -> u64) -> Outcome {
    suspended(asked, |found| {
        found.weigh(found.margin + less(found) as i64)
    })
}

/// The same with U left in the margin of this word alone; the word is right.
fn margin_without_cost(asked: &Asked, word: Word) -> Outcome {
    suspended(asked, |found| {
        if found.word == word {
            found.margin += found.cost_of_return() as i64;
        }
    })
}

/// The right outcome with U taken off where the others run before the decision.
fn cost_of_running(asked: &Asked, test: impl Fn(&Decision) -> bool) -> Outcome {
    decided(asked, |found| {
        if !found.suspended && test(found) {
            found.margin -= found.plan.cost_of_return(true) as i64;
            found.weigh(found.margin);
        }
    })
}

/// The right outcome with a word in place of another.
fn instead(asked: &Asked, word: Word, other: Word, test: impl Fn(&Decision) -> bool) -> Outcome {
    decided(asked, |found| {
        if found.word == word && test(found) {
            found.word = other;
        }
    })
}

pub const ALL: &[Difference] = &[
    ("return-without-cost", |asked| {
        weighed_less(asked, |found| found.cost_of_return())
    }),
    ("return-without-cost-at-final", |asked| {
        weighed_less(asked, |found| match found.is_final {
            true => found.cost_of_return(),
            false => 0,
        })
    }),
    ("return-without-switch", |asked| {
        weighed_less(asked, |found| match found.is_final {
            true => 0,
            false => found.plan.switch,
        })
    }),
    ("return-without-remaining", |asked| {
        weighed_less(asked, |found| match found.is_final {
            true => 0,
            false => found.remaining,
        })
    }),
    ("return-with-cost-added", |asked| {
        weighed_less(asked, |found| 2 * found.cost_of_return())
    }),
    ("return-with-switch-at-final", |asked| {
        suspended(asked, |found| {
            if found.is_final && found.plan.resume.is_some() {
                found.margin = found.margin_beside(found.plan.switch);
                found.weigh(found.margin);
            }
        })
    }),
    ("return-in-edition-1", |asked| {
        instead(asked, Word::Stay, Word::Resume, |found| {
            found.plan.resume.is_none() && found.margin >= 0
        })
    }),
    ("no-return-without-cost", |asked| {
        instead(asked, Word::Resume, Word::Stay, |found| {
            found.plan.resume == Some(0)
        })
    }),
    ("never-returns", |asked| {
        instead(asked, Word::Resume, Word::Stay, |_| true)
    }),
    ("returns-unweighed", |asked| {
        instead(asked, Word::Stay, Word::Resume, |found| {
            found.plan.resume.is_some()
        })
    }),
    ("returns-at-final-alone", |asked| {
        instead(asked, Word::Resume, Word::Stay, |found| !found.is_final)
    }),
    ("returns-before-final-alone", |asked| {
        instead(asked, Word::Resume, Word::Stay, |found| found.is_final)
    }),
    ("resume-at-release", |asked| {
        instead(asked, Word::Go, Word::Resume, |found| found.releases)
    }),
    ("stays-at-margin-0", |asked| {
        instead(asked, Word::Resume, Word::Stay, |found| found.margin == 0)
    }),
    ("stay-without-cost", |asked| {
        margin_without_cost(asked, Word::Stay)
    }),
    ("resume-without-cost", |asked| {
        margin_without_cost(asked, Word::Resume)
    }),
    ("cost-at-release", |asked| {
        cost_of_running(asked, |found| found.releases)
    }),
    ("cost-while-running", |asked| {
        cost_of_running(asked, |found| !found.releases)
    }),
];
