//! How a timed run goes: its habits, and where it is dearer.

use reference::composed::{function_totals, Cost};
use reference::gen::Random;
use reference::plan::{Form, Kind, Plan};

/// How a run goes.
pub struct Habit {
    /// Everything takes as long as it may; any time; nothing or as long as it
    /// may.
    pub ticks: u64,
    /// How often, in a hundred, it takes the dearer way: under load while the
    /// others run, alone while they do not.
    pub dear: u64,
    /// How often, in a hundred, a call that the rules refuse comes in between.
    pub strays: u64,
    /// Once so many visits were made, every loop is left.
    pub long: usize,
    /// It is broken off after so many.
    pub most: usize,
}

impl Habit {
    pub fn new(random: &mut Random, long: usize) -> Habit {
        Habit {
            ticks: random.below(3),
            dear: random.pick(&[100, 100, 80, 0]),
            strays: random.pick(&[0, 5, 20]),
            long,
            most: match random.chance(4) {
                true => random.index(10),
                false => 10 * long,
            },
        }
    }
}

/// The sum of these forms; on the way the ifs' dearer parts are noted.
fn weigh(forms: &[Form], totals: &[u128], cost: Cost, dearer: &mut [[bool; 2]]) -> u128 {
    let mut sum = 0;
    for form in forms {
        let own = u128::from(match cost {
            Cost::Isolated => form.isolated,
            Cost::Loaded => form.loaded,
        });
        sum += own;
        sum += match &form.kind {
            Kind::Leaf => 0,
            Kind::Call(target) => totals[*target],
            Kind::Loop(bound, body) => {
                (weigh(body, totals, cost, dearer) + own) * u128::from(*bound)
            }
            Kind::If(then_part, else_part) => {
                let by_then = weigh(then_part, totals, cost, dearer);
                let by_else = weigh(else_part, totals, cost, dearer);
                dearer[form.leaf][cost as usize] = by_then >= by_else;
                by_then.max(by_else)
            }
        };
    }
    sum
}

/// Of each if: whether its then part is the dearer one, alone and under load.
pub fn dearer_parts(plan: &Plan) -> Vec<[bool; 2]> {
    let mut dearer = vec![[false; 2]; plan.leaves().len()];
    for cost in [Cost::Isolated, Cost::Loaded] {
        let totals = function_totals(plan, cost);
        for forms in &plan.functions {
            weigh(forms, &totals, cost, &mut dearer);
        }
    }
    dearer
}
