//! The way from a report (02, L9), followed form by form with no list of runs. What is run
//! over and over is followed once, with its visits multiplied; they stop at the largest
//! 128-bit number.

use super::cause::Causes;
use super::composed::{holder, own_cost, part_with, Composed, Cost, Place};
use super::numbers::Numbers;
use super::plan::{Form, Kind, Plan};

/// How a way is chosen by the largest sums that its two choices give.
#[derive(Clone, Copy)]
pub struct Rule {
    /// Whether then is taken, by the sums with then and with else.
    pub then: fn(u128, u128) -> bool,
    /// Whether a loop is left, by the sums of leaving it and of going round.
    pub leave: fn(u128, u128) -> bool,
    /// Whether what follows an if counts in the sums of its parts.
    pub behind: bool,
}

/// The document's.
pub const RULE: Rule = Rule {
    then: |by_then, by_else| by_then >= by_else,
    leave: |leaving, turning| leaving >= turning,
    behind: true,
};

/// Where a way ends.
#[derive(Clone, Copy, Debug, PartialEq, Eq)]
pub enum Stop {
    /// At a point in a row of forms.
    Point,
    /// At the condition of an open loop.
    Condition,
    /// At the end of the run.
    End,
}

/// What tells a way from others beside its visits.
#[derive(Clone, Copy)]
pub struct Marks {
    pub stop: Stop,
    /// Whether the loop that was reported is gone round again.
    pub again: bool,
    /// Whether a silent loop is gone round.
    pub silent_round: bool,
    /// Whether a silent call is passed.
    pub silent_call: bool,
}

struct Way<'a> {
    composed: &'a Composed<'a>,
    rule: Rule,
    marks: Marks,
    /// How often each leaf is visited, and how often each function is run from start to end,
    /// its leaves not yet counted.
    visits: Vec<u128>,
    functions: Vec<u128>,
    /// The forms that are left to run, from the outermost to those that come next. Behind
    /// the outermost comes the end or a point.
    ahead: Vec<&'a [Form]>,
}

impl<'a> Way<'a> {
    fn new(composed: &'a Composed, rule: Rule) -> Way<'a> {
        let plan = composed.plan();
        Way {
            composed,
            rule,
            marks: Marks {
                stop: Stop::End,
                again: false,
                silent_round: false,
                silent_call: false,
            },
            visits: vec![0; plan.leaves().len()],
            functions: vec![0; plan.functions.len()],
            ahead: Vec::new(),
        }
    }

    fn plan(&self) -> &'a Plan {
        self.composed.plan()
    }

    fn visit(&mut self, leaf: usize, times: u128) {
        self.visits[leaf] = self.visits[leaf].saturating_add(times);
    }

    /// The largest sum of M by what is ahead, up to a point or the end.
    fn sum_ahead(&self) -> u128 {
        let ahead = self.ahead.iter();
        ahead.fold(0, |beyond, forms| self.composed.to_point(forms, beyond))
    }

    /// The part of an if that is taken, where this sum follows it.
    fn part(&self, then_part: &'a [Form], else_part: &'a [Form], beyond: u128) -> &'a [Form] {
        let beyond = if self.rule.behind { beyond } else { 0 };
        let sum = |part: &[Form]| self.composed.to_point(part, beyond);
        match (self.rule.then)(sum(then_part), sum(else_part)) {
            true => then_part,
            false => else_part,
        }
    }

    /// Goes down to the last visit of the place, and from there up to the next point.
    fn from_place(&mut self, forms: &'a [Form], place: &[(usize, u64)]) {
        let (leaf, visits) = place[0];
        let (position, form) = holder(forms, leaf);
        self.ahead.push(&forms[position + 1..]);
        if form.leaf != leaf {
            return self.from_place(part_with(form, leaf), place);
        }
        match (&form.kind, &place[1..]) {
            (_, []) => self.from_visit(form, visits),
            (Kind::Call(target), inner) => {
                self.from_place(&self.plan().functions[*target], inner);
            }
            (Kind::Loop(_, body), inner) => {
                // After its body comes its condition, a point.
                self.ahead.clear();
                self.marks.stop = Stop::Condition;
                self.from_place(body, inner);
            }
            _ => unreachable!("an open loop or call is named in the place itself"),
        }
    }

    fn from_visit(&mut self, form: &'a Form, visits: u64) {
        self.visit(form.leaf, 1);
        match &form.kind {
            Kind::Leaf => {}
            Kind::Call(target) => self.ahead.push(&self.plan().functions[*target]),
            Kind::If(then_part, else_part) => {
                let part = self.part(then_part, else_part, self.sum_ahead());
                self.ahead.push(part);
            }
            Kind::Loop(bound, body) => {
                let turning = self.composed.to_point(body, 0);
                if visits <= *bound && !(self.rule.leave)(self.sum_ahead(), turning) {
                    self.ahead = vec![body];
                    self.marks.stop = Stop::Condition;
                    self.marks.again = true;
                }
            }
        }
        self.to_point();
    }

    /// All that is ahead, up to a point or the end.
    fn to_point(&mut self) {
        while let Some(forms) = self.ahead.pop() {
            let Some((form, rest)) = forms.split_first() else {
                continue;
            };
            if form.point {
                self.marks.stop = Stop::Point;
                break;
            }
            self.ahead.push(rest);
            match &form.kind {
                Kind::If(then_part, else_part) => {
                    self.visit(form.leaf, 1);
                    let part = self.part(then_part, else_part, self.sum_ahead());
                    self.ahead.push(part);
                }
                // Any other silent form holds no point, by rule 8.
                _ => self.whole(form, 1),
            }
        }
        // Callers have higher numbers, so all runs of a function are known at its turn.
        for function in (0..self.functions.len()).rev() {
            let times = self.functions[function];
            if times > 0 {
                self.all_whole(&self.plan().functions[function], times);
            }
        }
    }

    fn all_whole(&mut self, forms: &'a [Form], times: u128) {
        for form in forms {
            self.whole(form, times);
        }
    }

    /// A form without points inside, run from start to end so many times.
    fn whole(&mut self, form: &'a Form, times: u128) {
        self.visit(form.leaf, times);
        match &form.kind {
            Kind::Leaf => {}
            Kind::Call(target) => {
                let function = &mut self.functions[*target];
                *function = function.saturating_add(times);
                self.marks.silent_call = true;
            }
            Kind::If(then_part, else_part) => {
                // What follows is the same behind both.
                self.all_whole(self.part(then_part, else_part, 0), times);
            }
            Kind::Loop(bound, body) => {
                let round = own_cost(form, Cost::Loaded) + self.composed.to_point(body, 0);
                // A round more adds the same each time.
                if !(self.rule.leave)(0, round) {
                    let rounds = times.saturating_mul(u128::from(*bound));
                    self.visit(form.leaf, rounds);
                    self.all_whole(body, rounds);
                    self.marks.silent_round = true;
                }
            }
        }
    }
}

impl Composed<'_> {
    fn way_by(&self, place: &Place, rule: Rule) -> Way<'_> {
        let mut way = Way::new(self, rule);
        way.from_place(&way.plan().functions[self.plan().main()], place);
        way
    }

    /// The visits of the way that another rule chooses, for stand-ins.
    pub fn visits_by(&self, place: &Place, rule: Rule) -> Vec<u128> {
        self.way_by(place, rule).visits
    }

    /// The marks of the document's way.
    pub fn marks(&self, place: &Place) -> Marks {
        self.way_by(place, RULE).marks
    }
}

impl Causes for Composed<'_> {
    fn visits(&self, place: &Place) -> Vec<u128> {
        self.visits_by(place, RULE)
    }
}
