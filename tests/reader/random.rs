//! Random texts: small plans against the list of all their runs, all others
//! against the compositional computation.

use lent::tally::Tally;
use reference::damage;
use reference::edges;
use reference::edition::{editions, Edition};
use reference::gen::{self, Random};
use reference::listed::Listed;
use reference::plan::{self, Form, Kind, Plan};

use super::fixed::known;
use super::with_rows;

/// Small plans whose runs are listed, and the most runs of one.
const PLANS: usize = 10_000;
const MOST_RUNS: usize = 1_000;

/// What small plans hold, so that nothing goes untried.
#[derive(Default)]
struct Held {
    plans: usize,
    runs: usize,
    loops: usize,
    ifs: usize,
    calls: usize,
    silent: usize,
    /// Silent leaves that cost nothing.
    free: usize,
    points: usize,
    several: usize,
}

impl Held {
    fn note(&mut self, plan: &Plan, runs: usize) {
        let leaves = plan.leaves();
        let any =
            |test: &dyn Fn(&Form) -> bool| usize::from(leaves.iter().any(|&(_, form)| test(form)));
        self.plans += 1;
        self.runs += runs;
        self.loops += any(&|form| matches!(form.kind, Kind::Loop(..)));
        self.ifs += any(&|form| matches!(form.kind, Kind::If(..)));
        self.calls += any(&|form| matches!(form.kind, Kind::Call(_)));
        self.silent += any(&|form| !form.point);
        self.free += any(&|form| !form.point && form.isolated == 0);
        self.points += any(&|form| form.point);
        self.several += usize::from(plan.functions.len() > 1);
    }

    /// Whether a quarter of so many hold each.
    fn is_rich(&self, plans: usize) -> bool {
        let kinds = [
            self.loops,
            self.ifs,
            self.calls,
            self.silent,
            self.free,
            self.points,
            self.several,
        ];
        kinds.iter().all(|&count| count >= plans / 4)
    }
}

/// Every number of these is read off the list of all runs.
fn listed_plans_of(tally: &mut Tally, random: &mut Random, edition: Edition) {
    let plans = edition.share(PLANS);
    let mut held = Held::default();
    while held.plans < plans {
        let plan = gen::small_plan(random, edition);
        let Some(listed) = Listed::new(&plan, MOST_RUNS) else {
            continue;
        };
        held.note(&plan, listed.run_count());
        let leaves = plan.leaves().len();
        let records = random.pick(&[leaves, leaves + 1, 512, 513, 1 << 40]);
        tally.accepted("a small plan", &plan::text(&plan), records, &listed);
    }
    println!("  {edition}: {plans} plans, {} runs listed", held.runs);
    tally.holds(held.is_rich(plans), || {
        format!("small plans of every kind, {edition}")
    });
}

pub fn listed_plans(tally: &mut Tally) {
    for edition in Edition::BOTH {
        listed_plans_of(tally, &mut Random::new(62), edition);
    }
}

/// A text with rows of every length, or of one.
fn compare(tally: &mut Tally, random: &mut Random, group: &str, text: &[u8], every_row: bool) {
    if every_row {
        return with_rows(tally, group, text);
    }
    let records = random.pick(&[512, 512, 600, 5, 2]);
    tally.text(group, text, records);
}

/// Accepted plans, plans that may break rules, all of them damaged, and any bytes.
fn any_texts(tally: &mut Tally) {
    let mut random = Random::new(41);
    for (round, edition) in editions(6_400).enumerate() {
        let shape = match round % 5 {
            0 => gen::large_shape(&mut random),
            _ => gen::small_shape(&mut random),
        };
        let valid = plan::text(&gen::valid_plan(&mut random, shape, edition));
        let loose = plan::text(&gen::loose_plan(&mut random, shape, edition));
        let deep = gen::deep_text(&mut random);
        for (group, text, often) in [
            ("a valid plan", &valid, 2),
            ("a plan that may break rules", &loose, 2),
            ("a deep plan", &deep, 16),
        ] {
            compare(tally, &mut random, group, text, round % often == 0);
            for time in 0..3 {
                let changed = damage::damaged(&mut random, text);
                let every_row = time == 0 && round % 16 == 0;
                compare(tally, &mut random, "a damaged text", &changed, every_row);
            }
        }
        let any = (0..random.index(200)).map(|_| random.next() as u8);
        let any: Vec<u8> = any.collect();
        compare(tally, &mut random, "any bytes", &any, round % 16 == 0);
    }
}

fn large_plans(tally: &mut Tally) {
    let mut random = Random::new(64);
    for edition in editions(400) {
        let plan = gen::large_plan(&mut random, edition);
        tally.text("a large plan", &plan::text(&plan), 512);
    }
}

/// Totals at 2^40 and beside it.
fn totals_at_edge(tally: &mut Tally) {
    let mut random = Random::new(65);
    for edition in editions(200) {
        let plan = gen::small_plan(&mut random, edition);
        for (name, plan, refusal) in edges::topped(&mut random, &plan) {
            known(tally, name, &plan::text(&plan), 512, refusal);
        }
    }
}

pub fn compare_all(tally: &mut Tally) {
    any_texts(tally);
    large_plans(tally);
    totals_at_edge(tally);
}
