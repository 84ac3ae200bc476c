//! Every number composed form by form, with no list of runs. For plans of any
//! size. Sums stop at the largest 128-bit number, far above every cap.

use std::collections::BTreeSet;

use super::numbers::{Numbers, Times};
use super::plan::{Form, Kind, Plan, MOST_LEVEL};
use super::rules;

/// Which of the two costs of a visit is summed.
#[derive(Clone, Copy, Debug, PartialEq, Eq)]
pub enum Cost {
    Isolated,
    Loaded,
}

pub fn own_cost(form: &Form, cost: Cost) -> u128 {
    match cost {
        Cost::Isolated => u128::from(form.isolated),
        Cost::Loaded => u128::from(form.loaded),
    }
}

/// `rounds` rounds of a loop, each its body and then its condition.
fn rounds_sum(rounds: u64, body: u128, condition: u128) -> u128 {
    body.saturating_add(condition)
        .saturating_mul(u128::from(rounds))
}

/// Largest sum over the runs of these forms. `called` holds the totals of the
/// functions of lower numbers.
fn sum(forms: &[Form], called: &[u128], cost: Cost) -> u128 {
    forms.iter().fold(0, |all: u128, form| {
        all.saturating_add(form_sum(form, called, cost))
    })
}

fn form_sum(form: &Form, called: &[u128], cost: Cost) -> u128 {
    let own = own_cost(form, cost);
    own.saturating_add(match &form.kind {
        Kind::Leaf => 0,
        Kind::Call(target) => called[*target],
        Kind::Loop(bound, body) => rounds_sum(*bound, sum(body, called, cost), own),
        Kind::If(then_part, else_part) => {
            sum(then_part, called, cost).max(sum(else_part, called, cost))
        }
    })
}

/// The largest sum of each function alone, what it calls included.
pub fn function_totals(plan: &Plan, cost: Cost) -> Vec<u128> {
    let mut totals = Vec::new();
    for forms in &plan.functions {
        totals.push(sum(forms, &totals, cost));
    }
    totals
}

/// The open loops and calls from the outermost to the innermost, then the last
/// point: each its leaf and how often its open loop's condition was visited
/// (1 for all but loops). Empty at the release.
pub type Place = Vec<(usize, u64)>;

pub struct Composed<'a> {
    plan: &'a Plan,
    isolated: Vec<u128>,
    loaded: Vec<u128>,
    levels: Vec<usize>,
    turns: Vec<u128>,
    max_load_turns: Vec<u128>,
    tails: Vec<u128>,
    stretches: Vec<u128>,
    release_stretch: u128,
    /// Of each function, whether a point is met in it or in what it calls.
    with_points: Vec<bool>,
}

/// The form of the row that is the leaf or holds it, and its position.
pub fn holder(forms: &[Form], leaf: usize) -> (usize, &Form) {
    let position = forms.iter().rposition(|form| form.leaf <= leaf);
    let position = position.expect("the leaf lies in this row");
    (position, &forms[position])
}

/// The part of an if that holds the leaf.
pub fn part_with(form: &Form, leaf: usize) -> &[Form] {
    let Kind::If(then_part, else_part) = &form.kind else {
        unreachable!("an open loop or call is named in the place itself");
    };
    match else_part.first() {
        Some(first) if first.leaf <= leaf => else_part,
        _ => then_part,
    }
}

impl<'a> Composed<'a> {
    /// The plan must be an accepted one.
    pub fn new(plan: &'a Plan) -> Composed<'a> {
        let count = plan.leaves().len();
        let mut new = Composed {
            plan,
            isolated: function_totals(plan, Cost::Isolated),
            loaded: function_totals(plan, Cost::Loaded),
            levels: vec![0; count],
            turns: vec![0; count],
            max_load_turns: vec![0; count],
            tails: vec![0; count],
            stretches: vec![0; count],
            release_stretch: 0,
            with_points: rules::functions_with_points(plan),
        };
        for forms in &plan.functions {
            new.set_levels(forms, 1);
            new.set_tails(forms, 0);
        }
        // Callers have higher numbers, so what can follow a function is
        // complete when its turn comes.
        let mut beyond = vec![0; plan.functions.len()];
        for function in (0..plan.functions.len()).rev() {
            new.set_stretches(&plan.functions[function], beyond[function], &mut beyond);
        }
        new.release_stretch = new.to_point(&plan.functions[plan.main()], 0);
        new
    }

    fn set_levels(&mut self, forms: &[Form], level: usize) {
        for form in forms {
            self.levels[form.leaf] = level;
            match &form.kind {
                Kind::Leaf | Kind::Call(_) => {}
                Kind::Loop(_, body) => self.set_levels(body, level + 1),
                Kind::If(then_part, else_part) => {
                    self.set_levels(then_part, level);
                    self.set_levels(else_part, level);
                }
            }
        }
    }

    /// Sets turns and tails. `after` is the largest sum from the end of these
    /// forms, in the first round of every loop around them, to the end of the
    /// function.
    fn set_tails(&mut self, forms: &[Form], mut after: u128) {
        for form in forms.iter().rev() {
            let own = own_cost(form, Cost::Isolated);
            match &form.kind {
                Kind::Leaf | Kind::Call(_) => {}
                Kind::Loop(bound, body) => {
                    let body_sum = sum(body, &self.isolated, Cost::Isolated);
                    self.turns[form.leaf] = own + body_sum;
                    self.max_load_turns[form.leaf] =
                        own_cost(form, Cost::Loaded) + sum(body, &self.loaded, Cost::Loaded);
                    self.set_tails(body, own + rounds_sum(bound - 1, body_sum, own) + after);
                }
                Kind::If(then_part, else_part) => {
                    self.set_tails(then_part, after);
                    self.set_tails(else_part, after);
                }
            }
            after += form_sum(form, &self.isolated, Cost::Isolated);
            self.tails[form.leaf] = after;
        }
    }

    /// Largest max-load sum from the start of these forms up to the next point,
    /// where `beyond` is the same from their end on.
    pub fn to_point(&self, forms: &[Form], beyond: u128) -> u128 {
        forms.iter().rev().fold(beyond, |beyond, form| {
            if form.point {
                return 0;
            }
            match &form.kind {
                Kind::If(then_part, else_part) => {
                    let longer = self.to_point(then_part, beyond);
                    own_cost(form, Cost::Loaded) + longer.max(self.to_point(else_part, beyond))
                }
                // A silent loop or call holds no point, by rule 8.
                _ => form_sum(form, &self.loaded, Cost::Loaded) + beyond,
            }
        })
    }

    /// `beyond` is what can follow these forms up to the next point;
    /// `functions` collects the same for the functions called here.
    fn set_stretches(&mut self, forms: &[Form], mut beyond: u128, functions: &mut [u128]) {
        for form in forms.iter().rev() {
            let inside = match &form.kind {
                Kind::Leaf => beyond,
                Kind::Call(target) => {
                    functions[*target] = functions[*target].max(beyond);
                    self.to_point(&self.plan.functions[*target], beyond)
                }
                // After the body of a loop that is a point comes that point.
                Kind::Loop(_, body) => {
                    self.set_stretches(body, 0, functions);
                    self.to_point(body, 0).max(beyond)
                }
                Kind::If(then_part, else_part) => {
                    self.set_stretches(then_part, beyond, functions);
                    self.set_stretches(else_part, beyond, functions);
                    self.to_point(then_part, beyond)
                        .max(self.to_point(else_part, beyond))
                }
            };
            if form.point {
                self.stretches[form.leaf] = own_cost(form, Cost::Loaded) + inside;
            }
            beyond = self.to_point(std::slice::from_ref(form), beyond);
        }
    }

    /// Largest max-load sum from the last visit of the place up to the next point,
    /// where `beyond` is the same from the end of these forms on, in the run that the
    /// place is in.
    fn from_visit(&self, forms: &[Form], place: &[(usize, u64)], beyond: u128) -> u128 {
        let (leaf, visits) = place[0];
        let (position, form) = holder(forms, leaf);
        let beyond = self.to_point(&forms[position + 1..], beyond);
        if form.leaf != leaf {
            return self.from_visit(part_with(form, leaf), place, beyond);
        }
        let inner = &place[1..];
        let behind = match &form.kind {
            Kind::Leaf => beyond,
            Kind::If(then_part, else_part) => {
                let by_then = self.to_point(then_part, beyond);
                by_then.max(self.to_point(else_part, beyond))
            }
            Kind::Call(target) => {
                let called = &self.plan.functions[*target];
                match inner.is_empty() {
                    true => self.to_point(called, beyond),
                    false => return self.from_visit(called, inner, beyond),
                }
            }
            // After its body comes its condition, a point.
            Kind::Loop(_, body) if !inner.is_empty() => return self.from_visit(body, inner, 0),
            Kind::Loop(bound, body) if visits <= *bound => self.to_point(body, 0).max(beyond),
            Kind::Loop(..) => beyond,
        };
        own_cost(form, Cost::Loaded) + behind
    }

    /// Largest isolated sum from the last visit of the place to the end of
    /// these forms.
    fn rest(&self, forms: &[Form], place: &[(usize, u64)]) -> u128 {
        let (leaf, visits) = place[0];
        let (position, form) = holder(forms, leaf);
        let own = own_cost(form, Cost::Isolated);
        let inner = &place[1..];
        let within = if form.leaf != leaf {
            self.rest(part_with(form, leaf), place)
        } else {
            match &form.kind {
                Kind::Call(target) if !inner.is_empty() => {
                    self.rest(&self.plan.functions[*target], inner)
                }
                Kind::Loop(bound, body) => {
                    let body_sum = sum(body, &self.isolated, Cost::Isolated);
                    if inner.is_empty() {
                        own + rounds_sum(bound + 1 - visits, body_sum, own)
                    } else {
                        self.rest(body, inner) + own + rounds_sum(bound - visits, body_sum, own)
                    }
                }
                _ => form_sum(form, &self.isolated, Cost::Isolated),
            }
        };
        within + sum(&forms[position + 1..], &self.isolated, Cost::Isolated)
    }

    /// Adds the points that can come first in these forms; true if they can be
    /// passed with no point.
    fn first_points(&self, forms: &[Form], around: &Place, found: &mut Vec<Place>) -> bool {
        for form in forms {
            if form.point {
                found.push([around.as_slice(), &[(form.leaf, 1)]].concat());
                return false;
            }
            if let Kind::If(then_part, else_part) = &form.kind {
                if !self.first_in_parts(then_part, else_part, around, found) {
                    return false;
                }
            }
        }
        true
    }

    /// The same for an if: true if one of its parts can be passed.
    fn first_in_parts(
        &self,
        then_part: &[Form],
        else_part: &[Form],
        around: &Place,
        found: &mut Vec<Place>,
    ) -> bool {
        let by_then = self.first_points(then_part, around, found);
        let by_else = self.first_points(else_part, around, found);
        by_then || by_else
    }

    /// Adds the points that can come next after the place within these forms, or
    /// first where no place is left; true if their end can be reached with no
    /// further point. `around` holds the open loops and calls outside.
    fn onward(
        &self,
        forms: &[Form],
        place: &[(usize, u64)],
        around: &Place,
        found: &mut Vec<Place>,
    ) -> bool {
        let Some(&(leaf, _)) = place.first() else {
            return self.first_points(forms, around, found);
        };
        let (position, form) = holder(forms, leaf);
        let passed = if form.leaf == leaf {
            self.out_of(form, place, around, found)
        } else {
            self.onward(part_with(form, leaf), place, around, found)
        };
        passed && self.first_points(&forms[position + 1..], around, found)
    }

    /// The same for the form that the place begins with.
    fn out_of(
        &self,
        form: &Form,
        place: &[(usize, u64)],
        around: &Place,
        found: &mut Vec<Place>,
    ) -> bool {
        let (leaf, visits) = place[0];
        let inner = &place[1..];
        let opened = [around.as_slice(), &[(leaf, visits)]].concat();
        match &form.kind {
            Kind::Leaf => true,
            Kind::If(then_part, else_part) => {
                self.first_in_parts(then_part, else_part, around, found)
            }
            Kind::Call(target) => self.onward(&self.plan.functions[*target], inner, &opened, found),
            Kind::Loop(bound, body) => {
                let entered = !inner.is_empty() || visits <= *bound;
                if entered && self.onward(body, inner, &opened, found) {
                    found.push([around.as_slice(), &[(leaf, visits + 1)]].concat());
                }
                // It can be left at its condition, not inside its body.
                inner.is_empty()
            }
        }
    }

    /// Whether a point can be met behind the last visit of the place, up to the end of
    /// these forms.
    fn point_ahead(&self, forms: &[Form], place: &[(usize, u64)]) -> bool {
        let (leaf, visits) = place[0];
        let (position, form) = holder(forms, leaf);
        let ahead = match form.leaf == leaf {
            true => self.point_ahead_within(form, visits, &place[1..]),
            false => self.point_ahead(part_with(form, leaf), place),
        };
        ahead || rules::meets_point(&self.with_points, &forms[position + 1..])
    }

    /// The same within the form that the place begins with. A loop comes back to its
    /// condition from inside its body, and from the condition where a round is left.
    fn point_ahead_within(&self, form: &Form, visits: u64, inner: &[(usize, u64)]) -> bool {
        match &form.kind {
            Kind::Leaf => false,
            Kind::Loop(bound, _) => !inner.is_empty() || visits <= *bound,
            Kind::Call(target) if !inner.is_empty() => {
                self.point_ahead(&self.plan.functions[*target], inner)
            }
            Kind::Call(_) | Kind::If(..) => rules::point_inside(&self.with_points, form),
        }
    }

    /// The places that can come next, and whether the run can end here.
    fn next(&self, place: &Place) -> (Vec<Place>, bool) {
        let main = &self.plan.functions[self.plan.main()];
        let mut found = Vec::new();
        let ends = self.onward(main, place, &Vec::new(), &mut found);
        (found, ends)
    }
}

fn narrow(sum: u128) -> u64 {
    u64::try_from(sum).expect("the sums of an accepted plan are at most 2^40")
}

impl Numbers for Composed<'_> {
    type Place = Place;

    fn plan(&self) -> &Plan {
        self.plan
    }

    fn total(&self) -> u64 {
        narrow(self.isolated[self.plan.main()])
    }

    fn max_load_total(&self) -> u64 {
        narrow(self.loaded[self.plan.main()])
    }

    fn release_stretch(&self) -> u64 {
        narrow(self.release_stretch)
    }

    fn function_total(&self, function: usize) -> u64 {
        narrow(self.isolated[function])
    }

    fn max_load_function_total(&self, function: usize) -> u64 {
        narrow(self.loaded[function])
    }

    fn level(&self, leaf: usize) -> usize {
        self.levels[leaf]
    }

    fn turn(&self, leaf: usize) -> u64 {
        narrow(self.turns[leaf])
    }

    fn max_load_turn(&self, leaf: usize) -> u64 {
        narrow(self.max_load_turns[leaf])
    }

    fn tail(&self, leaf: usize) -> u64 {
        narrow(self.tails[leaf])
    }

    fn stretch(&self, leaf: usize) -> u64 {
        narrow(self.stretches[leaf])
    }

    fn release(&self) -> Place {
        Vec::new()
    }

    fn report(&self, place: &Place, leaf: usize) -> Option<Place> {
        let (found, _) = self.next(place);
        let mut fitting = found
            .into_iter()
            .filter(|next| next.last().map(|at| at.0) == Some(leaf));
        let next = fitting.next();
        assert!(fitting.next().is_none(), "a report leads to one place");
        next
    }

    fn last_point(&self, place: &Place) -> Option<usize> {
        place.last().map(|at| at.0)
    }

    fn next_points(&self, place: &Place) -> BTreeSet<usize> {
        self.next(place)
            .0
            .iter()
            .filter_map(|next| next.last())
            .map(|at| at.0)
            .collect()
    }

    fn can_end(&self, place: &Place) -> bool {
        self.next(place).1
    }

    fn remaining(&self, place: &Place) -> u64 {
        if place.is_empty() {
            return self.total();
        }
        narrow(self.rest(&self.plan.functions[self.plan.main()], place))
    }

    /// The latest report of a lower level is that of the loop or call still
    /// open there.
    fn times(&self, place: &Place) -> Times {
        let mut times = [0; MOST_LEVEL + 1];
        for level in 0..=place.len() {
            times[level] = self.remaining(&place[..level].to_vec());
        }
        times
    }

    fn level_in_run(&self, place: &Place) -> usize {
        place.len()
    }

    fn is_final(&self, place: &Place) -> bool {
        let main = self.plan.main();
        match place.is_empty() {
            true => !self.with_points[main],
            false => !self.point_ahead(&self.plan.functions[main], place),
        }
    }

    fn stretch_at(&self, place: &Place) -> u64 {
        let main = &self.plan.functions[self.plan.main()];
        match place.is_empty() {
            true => self.release_stretch(),
            false => narrow(self.from_visit(main, place, 0)),
        }
    }
}
