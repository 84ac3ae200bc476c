//! Differences in which decisions are final (02, L3), and in what is weighed and
//! answered there.

use reference::calls::Word;
use reference::composed::{holder, part_with, Composed};
use reference::numbers::Numbers;
use reference::plan::{Form, Kind, Plan};

use super::super::law::Outcome;
use super::decisions::{decided, Decision};
use super::numbers::alone;
use super::{Asked, Difference};

/// What is not looked at for a point behind a place.
#[derive(Clone, Copy, PartialEq, Eq)]
enum Unseen {
    /// Another round of the loop that the run stands at.
    Rounds,
    /// The conditions that come again of the loops that the run is inside of.
    Loops,
    /// The then or the else parts of ifs that are still to come.
    Then,
    Else,
    /// The function of the call that the run stands at.
    Called,
}

/// A look for points that can still come.
struct Look<'a> {
    plan: &'a Plan,
    unseen: Unseen,
}

impl Look<'_> {
    fn sees(&self, part: Unseen) -> bool {
        self.unseen != part
    }

    fn in_forms(&self, forms: &[Form]) -> bool {
        forms.iter().any(|form| form.point || self.in_parts(form))
    }

    /// In the parts of an if; a silent loop or call has no point inside, by rule 8.
    fn in_parts(&self, form: &Form) -> bool {
        let Kind::If(then_part, else_part) = &form.kind else {
            return false;
        };
        let by_then = self.sees(Unseen::Then) && self.in_forms(then_part);
        by_then || self.sees(Unseen::Else) && self.in_forms(else_part)
    }

    /// Behind the last visit of a place, up to the end of these forms.
    fn behind(&self, forms: &[Form], place: &[(usize, u64)]) -> bool {
        let leaf = place[0].0;
        let (position, form) = holder(forms, leaf);
        let within = match form.leaf == leaf {
            true => self.within(form, place),
            false => self.behind(part_with(form, leaf), place),
        };
        within || self.in_forms(&forms[position + 1..])
    }

    /// The same within the form that the place begins with.
    fn within(&self, form: &Form, place: &[(usize, u64)]) -> bool {
        let inner = &place[1..];
        match &form.kind {
            Kind::Leaf => false,
            Kind::If(..) => self.in_parts(form),
            Kind::Call(target) if inner.is_empty() => {
                self.sees(Unseen::Called) && self.in_forms(&self.plan.functions[*target])
            }
            Kind::Call(target) => self.behind(&self.plan.functions[*target], inner),
            Kind::Loop(bound, _) if inner.is_empty() => {
                self.sees(Unseen::Rounds) && place[0].1 <= *bound
            }
            Kind::Loop(_, body) => self.sees(Unseen::Loops) || self.behind(body, inner),
        }
    }
}

/// The right outcome with its decision taken for a final one where this says so.
fn judged(asked: &Asked, is_final: impl Fn(&Plan, &Decision) -> bool) -> Outcome {
    decided(asked, |found| {
        found.margin = found.margin_if(is_final(found.plan, found));
        found.weigh(found.margin);
    })
}

/// The same with something not looked at.
fn unseen(asked: &Asked, unseen: Unseen) -> Outcome {
    judged(asked, |plan, found| {
        let look = Look { plan, unseen };
        let main = &plan.functions[plan.main()];
        match found.releases {
            true => !look.in_forms(main),
            false => !look.behind(main, &found.place),
        }
    })
}

/// Whether no point comes behind the last one in its own function; of a release,
/// whether it is final.
fn own_function(plan: &Plan, found: &Decision) -> bool {
    let Some((&(last, _), outer)) = found.place.split_last() else {
        return found.is_final;
    };
    let leaves = plan.leaves();
    let is_call = |&(leaf, _): &(usize, u64)| matches!(leaves[leaf].1.kind, Kind::Call(_));
    let first = outer.iter().rposition(is_call).map_or(0, |call| call + 1);
    let own = alone(plan, leaves[last].0);
    Composed::new(&own).is_final(&found.place[first..].to_vec())
}

/// By how many calls of a function no point is to come behind it.
#[derive(Clone, Copy)]
enum Calls {
    Some,
    All,
}

impl Calls {
    fn among(self, mut calls: impl Iterator<Item = bool>) -> bool {
        match self {
            Calls::Some => calls.any(|silent| silent),
            Calls::All => calls.all(|silent| silent),
        }
    }

    /// Of each function, whether no point comes behind so many of its calls.
    fn ends(self, plan: &Plan) -> Vec<bool> {
        let leaves = plan.leaves();
        let levels = Composed::new(plan);
        let look = Look {
            plan,
            unseen: Unseen::Called,
        };
        let mut ends = vec![true; plan.functions.len()];
        for function in (0..plan.main()).rev() {
            let calls = leaves
                .iter()
                .filter(|(_, form)| form.kind == Kind::Call(function));
            let silent = |&(caller, call): &(usize, &Form)| {
                let behind = || look.behind(&plan.functions[caller], &[(call.leaf, 1)]);
                ends[caller] && levels.level(call.leaf) == 1 && !behind()
            };
            ends[function] = self.among(calls.map(silent));
        }
        ends
    }

    /// Whether a decision is taken for final by its point, whatever call it is in.
    fn judge(self, plan: &Plan, found: &Decision) -> bool {
        let last = found.place.last();
        let function = last.map_or(plan.main(), |&(leaf, _)| plan.leaves()[leaf].0);
        own_function(plan, found) && self.ends(plan)[function]
    }
}

/// Whether no point stands further down in the text of the functions that the run is in.
fn by_text(plan: &Plan, found: &Decision) -> bool {
    let leaves = plan.leaves();
    let further = |&(leaf, _): &(usize, u64)| {
        let (function, _) = leaves[leaf];
        let mut below = leaves[leaf + 1..].iter();
        below.any(|&(of, form)| of == function && form.point)
    };
    found.is_final && !found.place.iter().any(further)
}

pub const ALL: &[Difference] = &[
    ("final-with-switch", |asked| {
        decided(asked, |found| {
            if found.is_final {
                found.margin = found.margin_beside(found.plan.switch);
                found.weigh(found.margin);
            }
        })
    }),
    ("final-with-remaining", |asked| {
        decided(asked, |found| {
            if found.is_final {
                found.margin = found.margin_beside(found.remaining);
                found.weigh(found.margin);
            }
        })
    }),
    ("final-remaining-0", |asked| {
        decided(asked, |found| {
            if found.is_final {
                found.remaining = 0;
            }
        })
    }),
    ("final-stay-as-others", |asked| {
        decided(asked, |found| {
            if found.word == Word::Stay {
                found.margin = found.margin_if(false);
            }
        })
    }),
    ("release-never-final", |asked| {
        judged(asked, |_, found| found.is_final && !found.releases)
    }),
    ("release-always-final", |asked| {
        judged(asked, |_, found| found.is_final || found.releases)
    }),
    ("final-rounds-unseen", |asked| unseen(asked, Unseen::Rounds)),
    ("final-loops-unseen", |asked| unseen(asked, Unseen::Loops)),
    ("final-else-unseen", |asked| unseen(asked, Unseen::Else)),
    ("final-then-unseen", |asked| unseen(asked, Unseen::Then)),
    ("final-called-unseen", |asked| unseen(asked, Unseen::Called)),
    ("final-callers-unseen", |asked| judged(asked, own_function)),
    ("final-by-some-call", |asked| {
        judged(asked, |plan, found| Calls::Some.judge(plan, found))
    }),
    ("final-by-all-calls", |asked| {
        judged(asked, |plan, found| Calls::All.judge(plan, found))
    }),
    ("final-never-at-loops", |asked| {
        judged(asked, |plan, found| {
            let last = found.place.last();
            let kind = last.map(|&(leaf, _)| &plan.leaves()[leaf].1.kind);
            found.is_final && !matches!(kind, Some(Kind::Loop(..)))
        })
    }),
    ("final-by-text", |asked| judged(asked, by_text)),
];
