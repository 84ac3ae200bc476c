//! Differences in the stretch that a decision goes by (02, L6): that of another visit, of
//! another call, or one that is summed up wrongly.

use reference::composed::{holder, part_with, Composed, Place};
use reference::numbers::Numbers;
use reference::plan::{Form, Kind, Plan};

use super::super::law::Outcome;
use super::decisions::decided;
use super::{Asked, Difference};

/// What goes wrong on the way from a visit to the next point.
#[derive(Clone, Copy, PartialEq, Eq)]
enum Flaw {
    /// The last visit of a loop goes round once more.
    LastRound,
    /// A loop that may turn does not.
    NoRound,
    /// Behind the body of an open loop its condition is passed.
    LoopsPassed,
    /// Behind a function nothing comes.
    Callers,
    /// Behind a function comes what is behind its first call in the text, or its last.
    FirstCall,
    LastCall,
    /// The function of the call that the run stands at is passed over.
    Called,
    /// One part of an if is not looked at.
    Then,
    Else,
    /// A silent loop turns once, a silent call runs nothing.
    OneRound,
    EmptyCall,
    /// Points that are leaves are passed.
    Points,
    /// Isolated costs.
    Isolated,
    /// The visit itself is left out.
    Itself,
}

struct Walk<'a> {
    plan: &'a Plan,
    composed: &'a Composed<'a>,
    flaw: Flaw,
}

impl Walk<'_> {
    fn has(&self, flaw: Flaw) -> bool {
        self.flaw == flaw
    }

    fn own(&self, form: &Form) -> u64 {
        match self.flaw {
            Flaw::Isolated => form.isolated,
            _ => form.loaded,
        }
    }

    /// The sum of a round of a loop.
    fn round(&self, leaf: usize) -> u64 {
        match self.flaw {
            Flaw::Isolated => self.composed.turn(leaf),
            _ => self.composed.max_load_turn(leaf),
        }
    }

    /// The sum of a function.
    fn total(&self, function: usize) -> u64 {
        match self.flaw {
            Flaw::Isolated => self.composed.function_total(function),
            _ => self.composed.max_load_function_total(function),
        }
    }

    fn parts(&self, then_part: &[Form], else_part: &[Form], beyond: u64) -> u64 {
        match self.flaw {
            Flaw::Then => self.ahead(else_part, beyond),
            Flaw::Else => self.ahead(then_part, beyond),
            _ => {
                let by_then = self.ahead(then_part, beyond);
                by_then.max(self.ahead(else_part, beyond))
            }
        }
    }

    /// From the start of these forms up to the next point.
    fn ahead(&self, forms: &[Form], beyond: u64) -> u64 {
        forms.iter().rev().fold(beyond, |beyond, form| {
            let passed = self.has(Flaw::Points) && form.kind == Kind::Leaf;
            if form.point && !passed {
                return 0;
            }
            let own = self.own(form);
            match &form.kind {
                Kind::Leaf => own + beyond,
                Kind::Call(_) if self.has(Flaw::EmptyCall) => own + beyond,
                Kind::Call(target) => own + self.total(*target) + beyond,
                Kind::Loop(_, _) if self.has(Flaw::OneRound) => {
                    own + self.round(form.leaf) + beyond
                }
                Kind::Loop(bound, _) => own + bound * self.round(form.leaf) + beyond,
                Kind::If(then_part, else_part) => own + self.parts(then_part, else_part, beyond),
            }
        })
    }

    /// What comes behind a function that this call runs.
    fn behind_function(&self, target: usize, beyond: u64) -> u64 {
        let leaves = self.plan.leaves();
        let mut calls = leaves
            .iter()
            .filter(|(_, form)| form.kind == Kind::Call(target));
        let other = match self.flaw {
            Flaw::Callers => return 0,
            Flaw::FirstCall => calls.next(),
            Flaw::LastCall => calls.next_back(),
            _ => return beyond,
        };
        other.map_or(0, |&(function, form)| {
            self.behind(&self.plan.functions[function], form.leaf)
        })
    }

    /// From the end of a form of these up to the next point or their end.
    fn behind(&self, forms: &[Form], leaf: usize) -> u64 {
        let (position, form) = holder(forms, leaf);
        let beyond = self.ahead(&forms[position + 1..], 0);
        match &form.kind {
            _ if form.leaf == leaf => beyond,
            Kind::Loop(_, body) => self.behind(body, leaf),
            // What is behind the part counts too, where no point comes in it.
            _ => self.behind(part_with(form, leaf), leaf) + beyond,
        }
    }

    /// From the last visit of the place up to the next point.
    fn from(&self, forms: &[Form], place: &[(usize, u64)], beyond: u64) -> u64 {
        let (leaf, visits) = place[0];
        let (position, form) = holder(forms, leaf);
        let beyond = self.ahead(&forms[position + 1..], beyond);
        if form.leaf != leaf {
            return self.from(part_with(form, leaf), place, beyond);
        }
        let inner = &place[1..];
        let behind = match &form.kind {
            Kind::Leaf => beyond,
            Kind::If(then_part, else_part) => self.parts(then_part, else_part, beyond),
            Kind::Call(target) => {
                let called = &self.plan.functions[*target];
                let outside = self.behind_function(*target, beyond);
                match inner.is_empty() {
                    true if self.has(Flaw::Called) => beyond,
                    true => self.ahead(called, outside),
                    false => return self.from(called, inner, outside),
                }
            }
            Kind::Loop(_, body) if !inner.is_empty() => {
                let passed = match self.has(Flaw::LoopsPassed) {
                    true => self.own(form) + beyond,
                    false => 0,
                };
                return self.from(body, inner, passed);
            }
            Kind::Loop(bound, body) => {
                let turns = visits <= *bound && !self.has(Flaw::NoRound);
                match turns || self.has(Flaw::LastRound) {
                    true => self.ahead(body, 0).max(beyond),
                    false => beyond,
                }
            }
        };
        match self.has(Flaw::Itself) {
            true => behind,
            false => self.own(form) + behind,
        }
    }
}

/// The right outcome with another stretch at a report.
fn reported(asked: &Asked, stretch: impl Fn(&Composed, &Place) -> u64) -> Outcome {
    stretched(asked, |composed, place| {
        (!place.is_empty()).then(|| stretch(composed, place))
    })
}

/// The same wherever one is given.
fn stretched(asked: &Asked, stretch: impl Fn(&Composed, &Place) -> Option<u64>) -> Outcome {
    decided(asked, |found| {
        if let Some(other) = stretch(&Composed::new(found.plan), &found.place) {
            found.margin = found.margin_with(other);
            found.weigh(found.margin);
        }
    })
}

fn flawed(asked: &Asked, flaw: Flaw) -> Outcome {
    reported(asked, |composed, place| {
        let plan = composed.plan();
        let walk = Walk {
            plan,
            composed,
            flaw,
        };
        walk.from(&plan.functions[plan.main()], place, 0)
    })
}

/// The largest of the stretches of the points that can come first.
fn of_first_points(composed: &Composed) -> u64 {
    let release = composed.release();
    let first = composed.next_points(&release).into_iter();
    let stretches = first.filter_map(|leaf| {
        let place = composed.report(&release, leaf)?;
        Some(composed.stretch_at(&place))
    });
    stretches.max().unwrap_or(composed.release_stretch())
}

pub const ALL: &[Difference] = &[
    ("stretch-of-point", |asked| {
        reported(asked, |composed, place| composed.stretch_of_last(place))
    }),
    ("stretch-of-first-visit", |asked| {
        reported(asked, |composed, place| {
            let mut first = place.clone();
            if let Some(last) = first.last_mut() {
                last.1 = 1;
            }
            composed.stretch_at(&first)
        })
    }),
    ("stretch-of-visit-at-release", |asked| {
        stretched(asked, |composed, place| {
            place.is_empty().then(|| of_first_points(composed))
        })
    }),
    ("stretch-of-last-round", |asked| {
        flawed(asked, Flaw::LastRound)
    }),
    ("stretch-without-round", |asked| {
        flawed(asked, Flaw::NoRound)
    }),
    ("stretch-past-open-loops", |asked| {
        flawed(asked, Flaw::LoopsPassed)
    }),
    ("stretch-without-callers", |asked| {
        flawed(asked, Flaw::Callers)
    }),
    ("stretch-of-first-call", |asked| {
        flawed(asked, Flaw::FirstCall)
    }),
    ("stretch-of-last-call", |asked| {
        flawed(asked, Flaw::LastCall)
    }),
    ("stretch-past-called", |asked| flawed(asked, Flaw::Called)),
    ("stretch-then-unseen", |asked| flawed(asked, Flaw::Then)),
    ("stretch-else-unseen", |asked| flawed(asked, Flaw::Else)),
    ("stretch-of-one-round", |asked| {
        flawed(asked, Flaw::OneRound)
    }),
    ("stretch-of-empty-calls", |asked| {
        flawed(asked, Flaw::EmptyCall)
    }),
    ("stretch-past-points", |asked| flawed(asked, Flaw::Points)),
    ("stretch-isolated", |asked| flawed(asked, Flaw::Isolated)),
    ("stretch-without-itself", |asked| {
        flawed(asked, Flaw::Itself)
    }),
];
