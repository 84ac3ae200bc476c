//! A deterministic pseudo-random generator, random valid plans, random runs.

use super::composed::{function_totals, Composed, Cost};
use super::edition::Edition;
use super::numbers::Numbers;
use super::plan::{self, Form, Kind, Plan, MOST_COST, MOST_DEADLINE};
use super::rules;

/// A linear congruential generator whose high bits are stirred into the low.
pub struct Random(u64);

impl Random {
    pub fn new(seed: u64) -> Random {
        let mut random = Random(seed ^ 0x5bd1_e995_9e37_79b9);
        random.next();
        random
    }

    pub fn next(&mut self) -> u64 {
        self.0 = self
            .0
            .wrapping_mul(6_364_136_223_846_793_005)
            .wrapping_add(1_442_695_040_888_963_407);
        let stirred = (self.0 ^ (self.0 >> 29)).wrapping_mul(0xff51_afd7_ed55_8ccd);
        stirred ^ (stirred >> 32)
    }

    /// From 0 to `count` - 1; the slight unevenness does not matter here.
    pub fn below(&mut self, count: u64) -> u64 {
        self.next() % count
    }

    pub fn index(&mut self, count: usize) -> usize {
        self.below(count as u64) as usize
    }

    pub fn chance(&mut self, percent: u64) -> bool {
        self.below(100) < percent
    }

    pub fn pick<T: Copy>(&mut self, from: &[T]) -> T {
        from[self.index(from.len())]
    }

    /// A number, or the one before or behind it, as near as 64 bits come.
    pub fn beside(&mut self, number: i128) -> u64 {
        let number = number + i128::from(self.below(3)) - 1;
        number.clamp(0, i128::from(u64::MAX)) as u64
    }

    /// What a number is changed to: one more, one less, 0, a random one, the
    /// largest, and one of those that stand in tables and states.
    pub fn others(&mut self, old: u64) -> [u64; 6] {
        [
            old.wrapping_add(1),
            old.wrapping_sub(1),
            0,
            self.next(),
            u64::MAX,
            self.below(20),
        ]
    }

    pub fn other(&mut self, old: u64) -> u64 {
        let all = self.others(old);
        self.pick(&all)
    }
}

/// What random plans are to look like.
#[derive(Clone, Copy, Debug)]
pub struct Shape {
    pub functions: usize,
    /// Leaves aimed at, before the calls that rule 9 asks for.
    pub leaves: usize,
    /// Loops and ifs within one another.
    pub depth: usize,
    pub bound: u64,
    pub cost: u64,
    /// Percentages of points, and of calls, loops and ifs among the forms.
    pub points: u64,
    pub calls: u64,
    pub loops: u64,
    pub ifs: u64,
}

/// Few enough runs to list, most of the time.
pub fn small_shape(random: &mut Random) -> Shape {
    Shape {
        functions: 1 + random.index(4),
        leaves: 3 + random.index(13),
        depth: 1 + random.index(4),
        bound: 1 + random.below(3),
        cost: random.pick(&[3, 10, 100, MOST_COST]),
        points: random.pick(&[0, 20, 20, 50, 50, 80, 80]),
        calls: random.pick(&[10, 25]),
        loops: random.pick(&[15, 25, 35]),
        ifs: random.pick(&[15, 25, 35]),
    }
}

/// Up to the caps of the paper.
pub fn large_shape(random: &mut Random) -> Shape {
    Shape {
        functions: 1 + random.index(16),
        leaves: 20 + random.index(450),
        depth: 1 + random.index(12),
        bound: random.pick(&[1, 3, 40, 65_535]),
        cost: random.pick(&[10, 1_000, MOST_COST]),
        points: random.pick(&[5, 30, 70]),
        calls: random.pick(&[2, 10]),
        loops: random.pick(&[5, 20]),
        ifs: random.pick(&[5, 20]),
    }
}

/// How often, in a hundred, a plan that may break rules has points that cost nothing.
const COSTLESS: u64 = 20;

/// Rule 19 kept: a point that costs nothing gets the cost 1.
fn price(form: &mut Form) {
    if form.point && form.isolated == 0 {
        form.isolated = 1;
        form.loaded = form.loaded.max(1);
    }
}

struct Builder<'a> {
    random: &'a mut Random,
    shape: Shape,
    /// Whether points may cost nothing.
    costless: bool,
}

impl Builder<'_> {
    /// Costs lean to the edges of their range.
    fn costs(&mut self) -> (u64, u64) {
        let most = self.shape.cost;
        let loaded = if self.random.chance(5) {
            most
        } else {
            self.random.below(most + 1)
        };
        let isolated = if self.random.chance(15) {
            loaded
        } else {
            self.random.below(loaded + 1)
        };
        (isolated, loaded)
    }

    fn form(&mut self, kind: Kind) -> Form {
        let (isolated, loaded) = self.costs();
        let point = self.random.chance(self.shape.points);
        let mut form = Form {
            leaf: 0,
            point,
            isolated,
            loaded,
            kind,
        };
        if !self.costless {
            price(&mut form);
        }
        form
    }

    fn forms(
        &mut self,
        function: usize,
        depth: usize,
        budget: &mut usize,
        most: usize,
    ) -> Vec<Form> {
        let mut row = Vec::new();
        // Full rows are common, empty ones not rare.
        let count = if self.random.chance(60) {
            most
        } else {
            self.random.index(most + 1)
        };
        while row.len() < count && *budget > 0 {
            *budget -= 1;
            let roll = self.random.below(100);
            let shape = self.shape;
            let kind = if roll < shape.calls && function > 0 {
                Kind::Call(self.random.index(function))
            } else if roll < shape.calls || depth == 0 {
                Kind::Leaf
            } else if roll < shape.calls + shape.loops {
                let bound = 1 + self.random.below(shape.bound);
                Kind::Loop(bound, self.forms(function, depth - 1, budget, 4))
            } else if roll < shape.calls + shape.loops + shape.ifs {
                let then_part = self.forms(function, depth - 1, budget, 3);
                Kind::If(then_part, self.forms(function, depth - 1, budget, 3))
            } else {
                Kind::Leaf
            };
            row.push(self.form(kind));
        }
        row
    }
}

/// U of an edition 2 plan, often at an edge.
fn some_resume(random: &mut Random, cost: u64) -> u64 {
    let small = random.below(cost / 4 + 2);
    random.pick(&[0, 0, 1, 1, small, small, small, MOST_COST])
}

/// A plan by the grammar that may break rules 7 to 10 and 19.
pub fn loose_plan(random: &mut Random, shape: Shape, edition: Edition) -> Plan {
    let costless = random.chance(COSTLESS);
    let mut functions = Vec::new();
    let share = shape.leaves / shape.functions + 1;
    let mut left = shape.leaves;
    for function in 0..shape.functions {
        let mut builder = Builder {
            random: &mut *random,
            shape,
            costless,
        };
        let mut budget = share.min(left);
        let before = budget;
        functions.push(builder.forms(function, shape.depth, &mut budget, share));
        left -= before - budget;
    }
    let switch = random.below(shape.cost + 1);
    let deadline = 1 + random.below(MOST_DEADLINE);
    let resume = match edition {
        Edition::First => None,
        Edition::Second => Some(some_resume(random, shape.cost)),
    };
    let mut plan = Plan {
        deadline,
        switch,
        resume,
        functions,
    };
    plan.renumber();
    plan
}

/// Rule 9 kept: every function but the last gets a call from a later one.
fn call_all(random: &mut Random, plan: &mut Plan, cost: u64) {
    for function in rules::uncalled(plan) {
        let caller = function + 1 + random.index(plan.main() - function);
        let loaded = random.below(cost + 1);
        let isolated = random.below(loaded + 1);
        let call = Form {
            leaf: 0,
            point: true,
            isolated,
            loaded,
            kind: Kind::Call(function),
        };
        let forms = &mut plan.functions[caller];
        forms.insert(random.index(forms.len() + 1), call);
    }
    plan.renumber();
}

/// Rules 8 and 19 kept: silent loops and calls with a point inside become points, and
/// every point costs something.
fn show_points(plan: &mut Plan) {
    fn show(called: &[bool], forms: &mut [Form]) {
        for form in forms {
            match &mut form.kind {
                Kind::Loop(_, body) => show(called, body),
                Kind::If(then_part, else_part) => {
                    show(called, then_part);
                    show(called, else_part);
                    continue;
                }
                Kind::Leaf | Kind::Call(_) => {}
            }
            form.point |= rules::point_inside(called, form);
        }
    }
    for function in 0..plan.functions.len() {
        let called = rules::functions_with_points(plan);
        show(&called, &mut plan.functions[function]);
    }
    plan.change_all(price);
}

/// Rule 10 kept: bounds are halved until the totals fit; false if they never do.
fn shorten(plan: &mut Plan) -> bool {
    while function_totals(plan, Cost::Loaded)[plan.main()] > rules::MOST_TOTAL {
        let mut changed = false;
        plan.change_all(|form| {
            if let Kind::Loop(bound, _) = &mut form.kind {
                changed |= *bound > 1;
                *bound = (*bound / 2).max(1);
            }
        });
        if !changed {
            return false;
        }
    }
    true
}

/// A deadline near the edges that decisions turn on.
fn set_deadline(random: &mut Random, plan: &mut Plan) {
    let numbers = Composed::new(plan);
    let (total, max_load) = (numbers.total(), numbers.max_load_total());
    let stretch = numbers.release_stretch();
    let fitting = total + plan.switch;
    let near = match random.below(9) {
        0 => fitting.saturating_sub(1),
        1 => fitting,
        2 => fitting + stretch,
        3 => (fitting + stretch).saturating_sub(1),
        4 => fitting + random.below(max_load + 2),
        5 => fitting + stretch + random.below(max_load + 2),
        6 => max_load + plan.switch + random.below(total + 2),
        // What the dearest run takes if the others are never suspended, and a tick less.
        7 => max_load.max(fitting),
        _ => max_load.saturating_sub(1).max(fitting),
    };
    plan.deadline = near.clamp(1, MOST_DEADLINE);
}

/// In edition 2 sometimes a U of about as much as the deadline leaves beside total and T.
fn set_resume(random: &mut Random, plan: &mut Plan) {
    if plan.resume.is_some() && random.chance(25) {
        let fitting = Composed::new(plan).total() + plan.switch;
        let slack = plan.deadline.saturating_sub(fitting);
        let near = (slack + 1).saturating_sub(random.below(3));
        plan.resume = Some(near.min(MOST_COST));
    }
}

/// A plan that the reader accepts.
pub fn valid_plan(random: &mut Random, mut shape: Shape, edition: Edition) -> Plan {
    loop {
        let mut plan = loose_plan(random, shape, edition);
        call_all(random, &mut plan, shape.cost);
        show_points(&mut plan);
        if shorten(&mut plan) && plan::read(&plan::text(&plan), usize::MAX).is_ok() {
            set_deadline(random, &mut plan);
            set_resume(random, &mut plan);
            return plan;
        }
        // Too many levels, leaves or bytes: the next try is more modest.
        shape.depth = shape.depth.saturating_sub(1);
        shape.leaves = (shape.leaves * 9 / 10).max(1);
        shape.cost = (shape.cost / 2).max(1);
    }
}

/// A small plan; in edition 2 every third time one in whose runs the others often come
/// back.
pub fn small_plan(random: &mut Random, edition: Edition) -> Plan {
    if edition == Edition::Second && random.below(3) == 0 {
        return returning_plan(random);
    }
    let shape = small_shape(random);
    valid_plan(random, shape, edition)
}

/// A small plan, every second time one whose functions are often called more than once.
pub fn small_or_calling_plan(random: &mut Random, edition: Edition) -> Plan {
    let mut shape = small_shape(random);
    if random.chance(50) {
        (shape.functions, shape.calls) = (4, 50);
    }
    valid_plan(random, shape, edition)
}

/// A small plan of edition 2 in whose runs the others often come back more than once:
/// many points, T and U small beside the costs, and D not far above what must fit.
fn returning_plan(random: &mut Random) -> Plan {
    let mut shape = small_shape(random);
    (shape.points, shape.loops) = (80, 35);
    (shape.bound, shape.cost) = (1 + random.below(8), random.pick(&[10, 100]));
    let mut plan = valid_plan(random, shape, Edition::Second);
    let resume = random.below(3);
    (plan.switch, plan.resume) = (random.below(3), Some(resume));
    let numbers = Composed::new(&plan);
    let points = plan.leaves().into_iter().filter(|(_, form)| form.point);
    let stretches = points.map(|(_, form)| numbers.stretch(form.leaf));
    let most = stretches.max().unwrap_or(0);
    let fitting = numbers.total() + plan.switch + resume;
    plan.deadline = (fitting + random.below(most + 2)).max(1);
    plan
}

/// A small plan of many ifs and few points whose visits take 0 to 2 ticks under load: the
/// choices of its runs often give equal sums.
pub fn tied_plan(random: &mut Random, edition: Edition) -> Plan {
    let mut shape = small_shape(random);
    (shape.points, shape.calls) = (random.pick(&[10, 20, 30]), random.pick(&[10, 20]));
    (shape.loops, shape.ifs) = (random.pick(&[10, 25]), random.pick(&[30, 50]));
    let mut plan = valid_plan(random, shape, edition);
    plan.change_all(|form| {
        form.loaded = random.pick(&[0, 1, 1, 1, 2, 2]);
        form.isolated = form.isolated.min(form.loaded);
        price(form);
    });
    plan.switch %= 3;
    plan.resume = plan.resume.map(|cost| cost % 3);
    set_deadline(random, &mut plan);
    plan
}

/// A plan of few choices whose runs make about 64 visits: long rows, or a loop of many
/// rounds.
pub fn long_plan(random: &mut Random, edition: Edition) -> Plan {
    let mut shape = small_shape(random);
    let (leaves, bound) = random.pick(&[(100, 1), (70, 1), (50, 3), (20, 30), (10, 70)]);
    (shape.leaves, shape.bound) = (1 + random.index(leaves), bound);
    shape.depth = 1 + random.index(2);
    (shape.calls, shape.loops, shape.ifs) = (random.pick(&[2, 10]), 5, 5);
    valid_plan(random, shape, edition)
}

/// A plan of many leaves, most of them in parts of ifs, so that runs are short.
pub fn wide_plan(random: &mut Random, edition: Edition) -> Plan {
    let mut shape = large_shape(random);
    (shape.functions, shape.depth) = (1 + random.index(4), 4 + random.index(8));
    (shape.calls, shape.loops) = (random.pick(&[2, 10]), random.pick(&[0, 5, 20]));
    shape.ifs = 60;
    valid_plan(random, shape, edition)
}

pub fn large_plan(random: &mut Random, edition: Edition) -> Plan {
    let shape = large_shape(random);
    valid_plan(random, shape, edition)
}

/// Adds the leaves visited in one random run of these forms.
fn walk(random: &mut Random, plan: &Plan, forms: &[Form], long: usize, run: &mut Vec<usize>) {
    for form in forms {
        if run.len() > 10 * long {
            return;
        }
        run.push(form.leaf);
        match &form.kind {
            Kind::Leaf => {}
            Kind::Call(target) => walk(random, plan, &plan.functions[*target], long, run),
            Kind::If(then_part, else_part) => {
                let part = if random.chance(50) {
                    then_part
                } else {
                    else_part
                };
                walk(random, plan, part, long, run);
            }
            Kind::Loop(bound, body) => {
                let few = random.below(5);
                let rounds = if random.chance(30) {
                    *bound
                } else {
                    few.min(*bound)
                };
                for _ in 0..rounds {
                    if run.len() >= long {
                        break;
                    }
                    walk(random, plan, body, long, run);
                    run.push(form.leaf);
                }
            }
        }
    }
}

/// The leaves visited in one random run, loops of many rounds often cut to a
/// few and every loop left once the run is `long` visits long; None where
/// calls alone make it much longer.
pub fn random_run(random: &mut Random, plan: &Plan, long: usize) -> Option<Vec<usize>> {
    let mut run = Vec::new();
    walk(random, plan, &plan.functions[plan.main()], long, &mut run);
    (run.len() <= 10 * long).then_some(run)
}

/// The lines of a function that nests near the caps on brackets and levels.
fn deep_function(random: &mut Random, function: usize) -> Vec<String> {
    let call = |random: &mut Random| format!("(call s {} 0 0)", random.index(function));
    let mut lines = vec!["(fun".to_string()];
    let brackets = if random.chance(50) {
        58 + random.index(6)
    } else {
        random.index(40)
    };
    let loops = random.pick(&[5, 40, 50, 95]);
    let mut closing = vec![")"];
    let mut open = 0;
    while open < brackets {
        if random.chance(loops) {
            lines.push(format!("(loop s {} 0 0", 1 + random.below(3)));
            closing.push(")");
            open += 1;
        } else {
            lines.push("(if s 0 0\n(then".to_string());
            closing.push(")\n(else\n)\n)");
            open += 2;
        }
        if function > 0 && random.chance(4) {
            lines.push(call(random));
        }
    }
    match random.below(3) {
        0 => lines.push("(leaf s 0 0)".to_string()),
        1 if function > 0 => lines.push(call(random)),
        _ => {}
    }
    lines.extend(closing.iter().rev().map(|line| line.to_string()));
    lines
}

/// A text of one to four functions that nest near the caps on brackets and
/// levels, with calls that add what they call; it may pass either cap, and sometimes
/// has a point, which costs nothing.
pub fn deep_text(random: &mut Random) -> Vec<u8> {
    let functions = 1 + random.index(4);
    let mut lines = vec!["(task 1000 1".to_string()];
    for function in 0..functions {
        lines.extend(deep_function(random, function));
    }
    lines.push(")".to_string());
    if random.chance(COSTLESS) {
        let at = random.index(lines.len());
        lines[at] = lines[at].replacen(" s ", " p ", 1);
    }
    lines
        .iter()
        .flat_map(|line| format!("{line}\n").into_bytes())
        .collect()
}
