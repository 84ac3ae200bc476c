//! The runs of a plan with at most so many visits (02, L10) in order, visit by visit, without
//! a list of them: for plans of any number of runs.

use std::collections::BTreeMap;
use std::ptr;

use super::plan::{Form, Kind, Plan};

/// Where a least number of visits stops.
const MANY: usize = 1_000;

/// A part of what is left to run.
#[derive(Clone, Copy)]
enum Part<'a> {
    /// Forms in a row, one at least.
    Row(&'a [Form]),
    /// A loop whose condition is visited next and that can go round so often.
    Loop(&'a Form, u64),
}

impl PartialEq for Part<'_> {
    fn eq(&self, other: &Self) -> bool {
        match (self, other) {
            (Part::Row(one), Part::Row(other)) => ptr::eq(*one, *other),
            (Part::Loop(one, rounds), Part::Loop(other, others)) => {
                ptr::eq(*one, *other) && rounds == others
            }
            _ => false,
        }
    }
}

/// What is left to run, the part that comes next last.
#[derive(Clone, PartialEq)]
struct Left<'a>(Vec<Part<'a>>);

impl<'a> Left<'a> {
    fn row(mut self, forms: &'a [Form]) -> Left<'a> {
        if !forms.is_empty() {
            self.0.push(Part::Row(forms));
        }
        self
    }

    fn repeated(mut self, condition: &'a Form, rounds: u64) -> Left<'a> {
        self.0.push(Part::Loop(condition, rounds));
        self
    }
}

struct Walk<'a, F> {
    plan: &'a Plan,
    /// The least number of visits of each function.
    functions: Vec<usize>,
    /// The most visits of a run.
    most: usize,
    /// Takes the leaves of a run; says whether the next one is wanted.
    take: F,
}

fn least_of_row(forms: &[Form], functions: &[usize]) -> usize {
    let each = forms.iter().map(|form| least_of_form(form, functions));
    each.sum::<usize>().min(MANY)
}

fn least_of_form(form: &Form, functions: &[usize]) -> usize {
    let behind = match &form.kind {
        // A loop can be left at its first visit.
        Kind::Leaf | Kind::Loop(..) => 0,
        Kind::Call(target) => functions[*target],
        Kind::If(then_part, else_part) => {
            least_of_row(then_part, functions).min(least_of_row(else_part, functions))
        }
    };
    1 + behind
}

impl<'a, F: FnMut(&[usize]) -> bool> Walk<'a, F> {
    /// Whether what is left can be run in so many visits.
    fn fits(&self, left: &Left, visits: usize) -> bool {
        let of_part = |part: &Part| match part {
            Part::Row(forms) => least_of_row(forms, &self.functions),
            Part::Loop(..) => 1,
        };
        left.0.iter().map(of_part).sum::<usize>() <= visits
    }

    /// The next leaf, and what can be left behind its visit; none at the end.
    fn visit(&self, mut left: Left<'a>) -> Option<(usize, Vec<Left<'a>>)> {
        let (form, rounds) = match left.0.pop()? {
            Part::Loop(condition, rounds) => (condition, rounds),
            Part::Row(forms) => {
                left = left.row(&forms[1..]);
                match forms[0].kind {
                    Kind::Loop(bound, _) => (&forms[0], bound),
                    _ => (&forms[0], 0),
                }
            }
        };
        let behind = match &form.kind {
            Kind::Leaf => vec![left],
            Kind::Call(target) => vec![left.row(&self.plan.functions[*target])],
            Kind::If(then_part, else_part) => {
                vec![left.clone().row(then_part), left.row(else_part)]
            }
            Kind::Loop(..) if rounds == 0 => vec![left],
            Kind::Loop(_, body) => {
                let round = left.clone().repeated(form, rounds - 1).row(body);
                vec![left, round]
            }
        };
        Some((form.leaf, behind))
    }

    /// The runs that begin with these leaves and go on by one of these ways, each of which
    /// can end in time; says whether more are wanted.
    fn walk(&mut self, leaves: &mut Vec<usize>, ways: Vec<Left<'a>>) -> bool {
        if ways.iter().any(|left| left.0.is_empty()) && !(self.take)(leaves) {
            return false;
        }
        let visits = self.most - leaves.len();
        let mut next: BTreeMap<usize, Vec<Left>> = BTreeMap::new();
        for (leaf, behind) in ways.into_iter().filter_map(|left| self.visit(left)) {
            let known = next.entry(leaf).or_default();
            for left in behind {
                if self.fits(&left, visits - 1) && !known.contains(&left) {
                    known.push(left);
                }
            }
        }
        next.into_iter().all(|(leaf, ways)| {
            leaves.push(leaf);
            let on = self.walk(leaves, ways);
            leaves.pop();
            on
        })
    }
}

/// Hands on the leaves of each run with at most so many visits, in order, until the next
/// one is not wanted; says whether all were.
pub fn each(plan: &Plan, most: usize, take: impl FnMut(&[usize]) -> bool) -> bool {
    let mut functions = Vec::new();
    for forms in &plan.functions {
        functions.push(least_of_row(forms, &functions));
    }
    let start = Left(Vec::new()).row(&plan.functions[plan.main()]);
    let mut walk = Walk {
        plan,
        functions,
        most,
        take,
    };
    let fits = walk.fits(&start, most);
    !fits || walk.walk(&mut Vec::new(), vec![start])
}
