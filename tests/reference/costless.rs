//! Plans with one point that costs nothing, which 19 alone refuses, and the same with
//! that leaf silent. Tables of both can be worked out, as if rule 19 were not there.

use super::edition::editions;
use super::gen::{self, Random};
use super::plan::{self, Kind, Plan, MOST_LEAVES};
use super::rules;

pub struct Costless {
    /// The leaf that is a point and costs nothing.
    pub leaf: usize,
    pub plan: Plan,
    /// The plan with this leaf silent; None where rule 8 refuses that.
    pub silent: Option<Plan>,
}

impl Costless {
    pub fn kind(&self) -> &'static str {
        match self.plan.leaves()[self.leaf].1.kind {
            Kind::Leaf => "leaf",
            Kind::Call(_) => "call",
            Kind::Loop(..) => "loop",
            Kind::If(..) => "if",
        }
    }
}

/// An accepted plan with this leaf made a point that costs nothing, and this much under
/// load; None where another rule refuses that.
fn at_leaf(accepted: &Plan, leaf: usize, loaded: u64) -> Option<Costless> {
    let with = |point: bool| {
        let mut plan = accepted.clone();
        plan.change(leaf, |form| {
            (form.point, form.isolated, form.loaded) = (point, 0, loaded);
        });
        rules::judge(&plan).is_ok().then_some(plan)
    };
    Some(Costless {
        leaf,
        plan: with(true)?,
        silent: with(false),
    })
}

/// Every leaf of an accepted plan in its turn, costing nothing under load and 7 ticks.
pub fn of_plan(accepted: &Plan) -> Vec<Costless> {
    let leaves = 0..accepted.leaves().len();
    let costs = leaves.flat_map(|leaf| [(leaf, 0), (leaf, 7)]);
    costs
        .filter_map(|(leaf, loaded)| at_leaf(accepted, leaf, loaded))
        .collect()
}

/// Every kind of leaf in the main function, in a function that it calls and in the body
/// of a loop, and some in the parts of ifs.
const EVERYWHERE: &str = "(task 900 5\n(fun\n(leaf s 1 2)\n)\n(fun\n\
    (leaf s 2 3)\n(call s 0 1 2)\n(loop s 2 1 1\n(leaf s 3 4)\n)\n\
    (if s 1 2\n(then\n(leaf s 5 6)\n)\n(else\n(call s 0 4 9)\n)\n)\n)\n(fun\n\
    (leaf p 3 5)\n(call p 1 1 2)\n(loop p 3 1 2\n(leaf s 1 8)\n(call s 0 2 2)\n\
    (loop s 2 1 2\n)\n(if p 1 1\n(then\n)\n(else\n(leaf s 1 1)\n)\n)\n)\n\
    (if p 2 2\n(then\n(loop s 4 1 1\n(leaf s 1 1)\n)\n)\n(else\n\
    (if s 1 3\n(then\n(leaf p 2 2)\n)\n(else\n)\n)\n)\n)\n(leaf s 6 8)\n)\n)\n";

/// Those of a plan that has every kind of leaf everywhere, of so many random ones, and of
/// those of edition 2.
pub fn plans(random: &mut Random, count: usize) -> Vec<Costless> {
    let everywhere = plan::read(EVERYWHERE.as_bytes(), MOST_LEAVES);
    let mut accepted = vec![everywhere.expect("an accepted plan")];
    accepted.extend(editions(count).map(|edition| gen::small_plan(random, edition)));
    accepted.iter().flat_map(of_plan).collect()
}
