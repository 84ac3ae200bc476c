//! Tables of plans that break one rule, with every derived number as it would be
//! if the rule were not there. Only the rule itself can tell that they are bad.

use reference::composed::Composed;
use reference::edges;
use reference::edition::{editions, Edition};
use reference::gen::{self, Random};
use reference::plan::{
    Form, Kind, Plan, MOST_BOUND, MOST_COST, MOST_DEADLINE, MOST_FUNCTIONS, MOST_LEAVES,
};
use reference::table::{self, Table};

/// A silent leaf that costs nothing.
fn free(kind: Kind) -> Form {
    Form {
        leaf: 0,
        point: false,
        isolated: 0,
        loaded: 0,
        kind,
    }
}

fn plan(functions: Vec<Vec<Form>>) -> Plan {
    let mut plan = Plan {
        deadline: 100,
        switch: 1,
        resume: None,
        functions,
    };
    plan.renumber();
    plan
}

/// Forms inside so many loops.
fn in_loops(count: usize, inner: Vec<Form>) -> Vec<Form> {
    (0..count).fold(inner, |body, _| vec![free(Kind::Loop(2, body))])
}

/// Forms inside so many ifs, two brackets each.
fn in_ifs(count: usize, inner: Vec<Form>) -> Vec<Form> {
    (0..count).fold(inner, |body, _| vec![free(Kind::If(body, vec![]))])
}

fn block() -> Form {
    free(Kind::Leaf)
}

fn call(target: usize) -> Form {
    free(Kind::Call(target))
}

/// Rules 3 and 6 by bounds and targets, rule 4 by leaves and functions.
fn by_number() -> Vec<Plan> {
    let mut plans = Vec::new();
    for bound in [0, 1, MOST_BOUND, MOST_BOUND + 1, 1 << 32, u64::MAX] {
        let inner = free(Kind::Loop(bound, vec![block()]));
        plans.push(plan(vec![vec![inner]]));
    }
    for target in [0, 1, 2, 15, 16, 1 << 32] {
        plans.push(plan(vec![vec![], vec![call(0), call(target)]]));
        plans.push(plan(vec![vec![call(target)], vec![call(0)]]));
    }
    for leaves in [MOST_LEAVES, MOST_LEAVES + 1] {
        let row = (0..leaves).map(|_| block()).collect();
        plans.push(plan(vec![row]));
    }
    for functions in [0, 1, MOST_FUNCTIONS, MOST_FUNCTIONS + 1] {
        let body = |function: usize| match function.checked_sub(1) {
            None => vec![block()],
            Some(before) => vec![call(before)],
        };
        plans.push(plan((0..functions).map(body).collect()));
    }
    plans
}

/// Rule 7 by levels and brackets.
fn by_depth() -> Vec<Plan> {
    let mut plans = Vec::new();
    for count in [31, 32, 33] {
        plans.push(plan(vec![in_loops(count, vec![])]));
        plans.push(plan(vec![in_loops(count, vec![block()])]));
        plans.push(plan(vec![vec![], in_loops(count, vec![call(0)])]));
        plans.push(plan(vec![vec![block()], in_loops(count, vec![call(0)])]));
        let called = in_loops(16, vec![block()]);
        plans.push(plan(vec![called, in_loops(count - 17, vec![call(0)])]));
    }
    for count in [30, 31, 32] {
        plans.push(plan(vec![in_ifs(count, vec![block()])]));
        plans.push(plan(vec![in_ifs(count, in_loops(1, vec![]))]));
        plans.push(plan(vec![in_ifs(count, in_ifs(1, vec![]))]));
        plans.push(plan(vec![in_loops(1, in_ifs(count, vec![block()]))]));
    }
    plans
}

/// Rule 3 by deadlines, switch costs and costs of resuming.
fn by_task() -> Vec<Plan> {
    let mut plans = Vec::new();
    for deadline in [0, 1, MOST_DEADLINE, MOST_DEADLINE + 1, u64::MAX] {
        for switch in [0, MOST_COST, MOST_COST + 1, u64::MAX] {
            for resume in [None, Some(0), Some(MOST_COST), Some(MOST_COST + 1)] {
                let mut plan = plan(vec![vec![block()]]);
                (plan.deadline, plan.switch, plan.resume) = (deadline, switch, resume);
                plans.push(plan);
            }
        }
    }
    plans
}

/// Rules 8, 9 and 19 by random plans.
fn by_chance(random: &mut Random, edition: Edition) -> Table {
    let shape = gen::small_shape(random);
    let plan = gen::loose_plan(random, shape, edition);
    table::table(&Composed::new(&plan))
}

/// Rules 3, 5, 8, 9 and 19 by one leaf of an accepted plan: a cost out of range, M
/// below C, a report left out, a call left out, a cost left out, a report added.
fn by_one_leaf(random: &mut Random, edition: Edition) -> Table {
    let mut plan = gen::small_plan(random, edition);
    let leaf = random.index(plan.leaves().len().max(1));
    let way = random.below(7);
    plan.change(leaf, |form| match way {
        0 => form.loaded = MOST_COST + 1,
        1 => (form.isolated, form.loaded) = (MOST_COST + 1, MOST_COST + 1),
        2 => form.isolated = (form.loaded + 1).min(MOST_COST),
        3 => form.point = false,
        4 => form.isolated = 0,
        5 => form.point = true,
        _ => {
            if let Kind::Call(_) = form.kind {
                form.kind = Kind::Leaf;
            }
        }
    });
    table::table(&Composed::new(&plan))
}

/// Rule 10 by totals at 2^40 and beside it.
fn by_totals(random: &mut Random, edition: Edition) -> Vec<Table> {
    let plan = gen::small_plan(random, edition);
    edges::topped(random, &plan)
        .into_iter()
        .map(|(_, plan, _)| table::table(&Composed::new(&plan)))
        .collect()
}

/// Those within the rules are among them.
pub fn tables(random: &mut Random) -> Vec<Table> {
    let plans = [by_number(), by_depth(), by_task()].concat();
    let mut all: Vec<Table> = plans.iter().map(table::free).collect();
    for edition in editions(2_000) {
        all.push(by_chance(random, edition));
        all.push(by_one_leaf(random, edition));
    }
    for edition in editions(100) {
        all.extend(by_totals(random, edition));
    }
    all
}
