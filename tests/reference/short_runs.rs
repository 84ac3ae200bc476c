//! All short runs of a plan (02, L10): those of at most 64 visits, each sequence of visits
//! once, by leaf numbers, one that another begins with before it. Here they are picked
//! from the list of all runs; `ordered_runs` gives them one after the other.

use std::collections::BTreeSet;
use std::fmt::Write;

use super::ordered_runs;
use super::plan::{self, Form, Kind, Plan, MOST_LEAVES};
use super::runs::Run;

/// A run of more visits is not printed.
pub const MOST_VISITS: usize = 64;

/// A run as it is printed.
#[derive(Clone, Debug, PartialEq, Eq)]
pub struct ShortRun {
    pub leaves: Vec<usize>,
    pub isolated: u64,
    pub loaded: u64,
}

/// C and M of each leaf of a plan.
pub struct Costs(Vec<(u64, u64)>);

impl Costs {
    pub fn new(plan: &Plan) -> Costs {
        let leaves = plan.leaves().into_iter();
        Costs(
            leaves
                .map(|(_, form)| (form.isolated, form.loaded))
                .collect(),
        )
    }

    /// The run that visits these leaves.
    pub fn run(&self, leaves: &[usize]) -> ShortRun {
        let costs = leaves.iter().map(|&leaf| self.0[leaf]);
        ShortRun {
            leaves: leaves.to_vec(),
            isolated: costs.clone().map(|cost| cost.0).sum(),
            loaded: costs.map(|cost| cost.1).sum(),
        }
    }
}

impl ShortRun {
    /// Its line: the leaf numbers, then the sums of C and of M.
    pub fn line(&self) -> String {
        let mut line = String::new();
        for leaf in &self.leaves {
            write!(line, "{leaf} ").expect("a string takes it");
        }
        line + &format!("{} {}\n", self.isolated, self.loaded)
    }
}

/// The short ones among all runs of a plan, in order.
pub fn among(plan: &Plan, all: &[Run]) -> Vec<ShortRun> {
    let short = all.iter().filter(|run| run.len() <= MOST_VISITS);
    let numbers = short.map(|run| run.iter().map(|visit| visit.leaf).collect());
    // Each once, and by numbers: lists come in the order of what they first differ in, or
    // of their lengths where one begins with the other.
    let numbers: BTreeSet<Vec<usize>> = numbers.collect();
    let costs = Costs::new(plan);
    numbers.iter().map(|leaves| costs.run(leaves)).collect()
}

/// What the program prints for an accepted plan with these runs.
pub fn lines(plan: &Plan, all: &[Run]) -> String {
    among(plan, all).iter().map(ShortRun::line).collect()
}

/// The first lines that the program prints, at most so many, and whether these are all.
pub struct Beginning {
    pub lines: String,
    pub all: bool,
}

/// The first lines for an accepted plan.
pub fn beginning(plan: &Plan, most: usize) -> Beginning {
    let costs = Costs::new(plan);
    let (mut lines, mut count) = (String::new(), 0);
    let all = ordered_runs::each(plan, MOST_VISITS, |leaves| {
        if count < most {
            lines += &costs.run(leaves).line();
        }
        count += 1;
        count <= most
    });
    Beginning { lines, all }
}

/// The first lines for a text; a refused plan has one line.
pub fn printed(text: &[u8], most: usize) -> Beginning {
    match plan::read(text, MOST_LEAVES) {
        Ok(plan) => beginning(&plan, most),
        Err((number, line)) => Beginning {
            lines: format!("refused {number} {line}\n"),
            all: true,
        },
    }
}

/// How many runs have each number of visits, up to the most that are printed.
type Counts = [u128; MOST_VISITS + 1];

/// The one run that visits nothing.
fn nothing() -> Counts {
    let mut counts = [0; MOST_VISITS + 1];
    counts[0] = 1;
    counts
}

fn either(first: Counts, second: Counts) -> Counts {
    std::array::from_fn(|visits| first[visits] + second[visits])
}

/// Each run of the first followed by each of the second.
fn joined(first: Counts, second: Counts) -> Counts {
    std::array::from_fn(|visits| {
        let splits = (0..=visits).map(|at| first[at] * second[visits - at]);
        splits.sum()
    })
}

/// One visit, and then these.
fn visited(behind: Counts) -> Counts {
    let mut counts = [0; MOST_VISITS + 1];
    counts[1..].copy_from_slice(&behind[..MOST_VISITS]);
    counts
}

fn of_row(forms: &[Form], functions: &[Counts]) -> Counts {
    let each = forms.iter().map(|form| of_form(form, functions));
    each.fold(nothing(), joined)
}

fn of_form(form: &Form, functions: &[Counts]) -> Counts {
    visited(match &form.kind {
        Kind::Leaf => nothing(),
        Kind::Call(target) => functions[*target],
        // The two parts visit nothing alike; elsewhere they begin with different leaves.
        Kind::If(then_part, else_part) if then_part.is_empty() && else_part.is_empty() => nothing(),
        Kind::If(then_part, else_part) => {
            either(of_row(then_part, functions), of_row(else_part, functions))
        }
        Kind::Loop(bound, body) => {
            let round = joined(of_row(body, functions), visited(nothing()));
            // More rounds have too many visits.
            let rounds = (*bound).min(MOST_VISITS as u64);
            (0..rounds).fold(nothing(), |all, _| either(nothing(), joined(round, all)))
        }
    })
}

/// How many short runs a plan has.
pub fn count(plan: &Plan) -> u128 {
    let mut functions = Vec::new();
    for forms in &plan.functions {
        functions.push(of_row(forms, &functions));
    }
    functions[plan.main()].iter().sum()
}
