//! Where a stack of frames stands in the runs of a plan, found twice: read off
//! the list of all runs, and form by form.

use std::collections::HashMap;

use reference::composed::{Composed, Place};
use reference::gen::Random;
use reference::listed::Listed;
use reference::numbers::{Numbers, Times};
use reference::plan::{Form, Kind, Plan};
use reference::runs;

use super::state::{Frame, State, LEVELS};

/// Two histories, the first and the last in the list of runs, for each stack at
/// which some run stands, the release's among them.
pub struct Standings {
    by_stack: HashMap<Vec<Frame>, [Vec<usize>; 2]>,
}

/// The stack after one more report, of this leaf at this level.
fn stacked(stack: &mut Vec<Frame>, leaf: usize, level: usize) {
    let leaf = leaf as u64;
    let earlier = match stack.get(level - 1) {
        Some(&(stood, earlier)) if stood == leaf => earlier + 1,
        _ => 0,
    };
    stack.truncate(level - 1);
    stack.push((leaf, earlier));
    assert_eq!(stack.len(), level, "each level below has a report");
}

impl Standings {
    /// None if the plan has more than `limit` runs.
    pub fn new(plan: &Plan, limit: usize) -> Option<Standings> {
        let leaves = plan.leaves();
        let mut by_stack = HashMap::from([(Vec::new(), [Vec::new(), Vec::new()])]);
        for run in runs::of_plan(plan, limit)? {
            let (mut stack, mut history) = (Vec::new(), Vec::new());
            for visit in run.into_iter().filter(|visit| leaves[visit.leaf].1.point) {
                stacked(&mut stack, visit.leaf, visit.level);
                history.push(visit.leaf);
                let first = [history.clone(), history.clone()];
                by_stack.entry(stack.clone()).or_insert(first)[1].clone_from(&history);
            }
        }
        Some(Standings { by_stack })
    }

    /// A history with which a run stands at the state's stack.
    pub fn by_runs(&self, state: &State) -> Option<Vec<usize>> {
        let [first, _] = self.by_stack.get(&state.stack()?)?;
        Some(first.clone())
    }

    /// Whether both histories have the same remaining times and the same stretch and are
    /// both final or not.
    pub fn agree(&self, listed: &Listed) -> bool {
        self.by_stack.values().all(|[first, last]| {
            listed.times(first) == listed.times(last)
                && listed.stretch_at(first) == listed.stretch_at(last)
                && listed.is_final(first) == listed.is_final(last)
        })
    }

    pub fn count(&self) -> usize {
        self.by_stack.len()
    }

    /// One of the stacks, with its remaining times, as a running state.
    pub fn state(&self, random: &mut Random, listed: &Listed) -> State {
        let mut stacks: Vec<&Vec<Frame>> = self.by_stack.keys().collect();
        stacks.sort();
        let stack = stacks[random.index(stacks.len())];
        State::standing(stack, &listed.times(&self.by_stack[stack][0]))
    }
}

/// The leaves of these forms that are of their level: not those inside loops.
fn of_level(forms: &[Form]) -> Vec<&Form> {
    let mut all = Vec::new();
    for form in forms {
        all.push(form);
        if let Kind::If(then_part, else_part) = &form.kind {
            all.extend(of_level(then_part));
            all.extend(of_level(else_part));
        }
    }
    all
}

/// What is one level above a form: the body of a loop, the forms of a call.
fn inside<'a>(plan: &'a Plan, form: &'a Form) -> Option<&'a [Form]> {
    match &form.kind {
        Kind::Loop(_, body) => Some(body),
        Kind::Call(target) => Some(&plan.functions[*target]),
        Kind::Leaf | Kind::If(..) => None,
    }
}

/// How often at most a form was reported before its last report, where the run
/// stands at it, and where it is inside of it.
fn most_earlier(form: &Form, is_inside: bool) -> u64 {
    match form.kind {
        Kind::Loop(bound, _) => bound - u64::from(is_inside),
        _ => 0,
    }
}

fn decoded(plan: &Plan, forms: &[Form], stack: &[Frame]) -> Option<Place> {
    let (&(leaf, earlier), inner) = stack.split_first()?;
    let mut points = of_level(forms).into_iter().filter(|form| form.point);
    let form = points.find(|form| form.leaf as u64 == leaf)?;
    if earlier > most_earlier(form, !inner.is_empty()) {
        return None;
    }
    let mut place = vec![(form.leaf, earlier + 1)];
    if !inner.is_empty() {
        place.extend(decoded(plan, inside(plan, form)?, inner)?);
    }
    Some(place)
}

/// The place of the state's stack, found form by form.
pub fn by_forms(composed: &Composed, state: &State) -> Option<Place> {
    let plan = composed.plan();
    match state.stack()?.as_slice() {
        [] => Some(composed.release()),
        stack => decoded(plan, &plan.functions[plan.main()], stack),
    }
}

/// The remaining times that tails, turns and totals give along a stack, whether or not a
/// run stands there: each from the one below it. They wrap where a loop was visited too
/// often, and end where the stack leaves the plan.
pub fn times_along<N: Numbers>(numbers: &N, stack: &[Frame]) -> Times {
    let leaves = numbers.plan().leaves();
    let mut times = [0; LEVELS];
    times[0] = numbers.total();
    // What remains below up to the end of the forms of this level.
    let mut below = times[0];
    for (at, &(leaf, earlier)) in stack.iter().enumerate() {
        let Some(&(_, form)) = leaves.get(leaf as usize) else {
            break;
        };
        let (tail, turn) = (numbers.tail(form.leaf), numbers.turn(form.leaf));
        let first = times[at].wrapping_sub(below).wrapping_add(tail);
        times[at + 1] = first.wrapping_sub(earlier.wrapping_mul(turn));
        below = match form.kind {
            Kind::Loop(..) => tail,
            Kind::Call(target) => form.isolated + numbers.function_total(target),
            Kind::Leaf | Kind::If(..) => form.isolated,
        };
    }
    times
}

/// A number of earlier visits, often at an edge.
fn some_earlier(random: &mut Random, most: u64) -> u64 {
    let few = random.below(3);
    let edge = random.pick(&[0, few, most / 2, most.saturating_sub(1), most]);
    edge.min(most)
}

/// A stack at which some run of the plan stands, often a high one.
fn some_stack(random: &mut Random, plan: &Plan) -> Vec<Frame> {
    let upward = random.pick(&[50, 90, 100]);
    let mut stack = Vec::new();
    let mut forms = &plan.functions[plan.main()][..];
    while random.chance(upward.max(80)) {
        let points = of_level(forms).into_iter().filter(|form| form.point);
        let points: Vec<&Form> = points.collect();
        let opens = |form: &&Form| inside(plan, form).is_some();
        let opening: Vec<&Form> = points.iter().copied().filter(opens).collect();
        if points.is_empty() {
            break;
        }
        let is_inside = !opening.is_empty() && random.chance(upward);
        let form = random.pick(if is_inside { &opening } else { &points });
        let earlier = some_earlier(random, most_earlier(form, is_inside));
        stack.push((form.leaf as u64, earlier));
        match inside(plan, form) {
            Some(inner) if is_inside => forms = inner,
            _ => break,
        }
    }
    stack
}

/// A running state at such a stack, with its remaining times.
pub fn some_state(random: &mut Random, composed: &Composed) -> State {
    let stack = some_stack(random, composed.plan());
    let place = stack
        .iter()
        .map(|&(leaf, earlier)| (leaf as usize, earlier + 1));
    State::standing(&stack, &composed.times(&place.collect()))
}
