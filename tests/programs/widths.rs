//! Plans with numbers of every width in every field, up to the largest.

use reference::aimed::{joined, many, nest, words};
use reference::plan::{MOST_COST, MOST_LEVEL};

use super::comparison::Comparison;
use super::met::MOST_TOTAL;

/// The digits of the largest total.
const WIDEST: u32 = 13;

/// The smallest and the largest number of so many digits that a total can be.
fn edges(digits: u32) -> [u64; 2] {
    let next = 10u64.pow(digits);
    [next / 10, (next - 1).min(MOST_TOTAL)]
}

fn plan(deadline: u64, switch: u64, resume: Option<u64>, forms: &[String]) -> String {
    let forms = joined(forms);
    let behind = resume.map_or(String::new(), |cost| format!(" {cost}"));
    format!("(task {deadline} {switch}{behind}\n(fun\n{forms})\n)\n")
}

/// Silent forms that take this in all, by loops of leaves of most cost; `leaf` is a
/// leaf of its cost.
fn silent(amount: u64, leaf: fn(u64) -> String) -> Vec<String> {
    let (most, rest) = (leaf(MOST_COST), amount % MOST_COST);
    let rounds = amount / MOST_COST;
    let (outer, inner) = (rounds / 1_024, rounds % 1_024);
    let mut lines = Vec::new();
    if outer > 0 {
        let loops = [&format!("(loop s {outer} 0 0"), "(loop s 1024 0 0"];
        lines.extend(nest(&loops, 1, &[&most], &[")", ")"]));
    }
    if inner > 0 {
        let one = format!("(loop s {inner} 0 0");
        lines.extend(nest(&[&one], 1, &[&most], &[")"]));
    }
    lines.push(leaf(rest));
    lines
}

/// Forms that take this under any load.
fn steady(amount: u64) -> Vec<String> {
    silent(amount, |cost| format!("(leaf s {cost} {cost})"))
}

/// A point, then forms up to these totals: they are its tail and its stretch too.
fn of_totals(total: u64, max_load: u64) -> Vec<String> {
    let loaded = silent(max_load - total, |cost| format!("(leaf s 0 {cost})"));
    [words(&["(leaf p 1 1)"]), steady(total - 1), loaded].concat()
}

/// Each width of a total beside each width of a max-load total, which is no smaller;
/// D, T and U go through theirs, in both editions.
fn totals(comparison: &mut Comparison) {
    for narrow in 1..=WIDEST {
        for wide in narrow..=WIDEST {
            for edge in 0..2 {
                let forms = of_totals(edges(narrow)[edge], edges(wide)[edge]);
                let deadline = edges(1 + (narrow + wide) % WIDEST)[edge];
                let switch = edges(1 + (narrow + wide) % 7)[edge].min(MOST_COST);
                let resume = edges(1 + narrow % 7)[edge].min(MOST_COST);
                let group = format!("totals of {narrow} and {wide} digits");
                for resume in [None, Some(resume)] {
                    let text = plan(deadline, switch, resume, &forms);
                    comparison.text(&group, text.as_bytes());
                }
            }
        }
    }
}

/// A point of each level, with loops of one round around it: they take 1 + 2 * 31
/// ticks, and what follows them makes all tails as wide as can be.
fn levels(comparison: &mut Comparison) {
    let inner = MOST_LEVEL - 1;
    let loops = nest(&["(loop p 1 1 1"], inner, &["(leaf p 1 1)"], &[")"]);
    let behind = steady(MOST_TOTAL - 1 - 2 * inner as u64);
    let forms = [loops, behind].concat();
    for resume in [None, Some(0), Some(MOST_COST)] {
        let text = plan(MOST_TOTAL, MOST_COST, resume, &forms);
        comparison.text("a point of each level", text.as_bytes());
    }
}

/// The last point that a plan may have, in loops that make its tail wide.
fn last_point(comparison: &mut Comparison) {
    let most = format!("(leaf p {MOST_COST} {MOST_COST})");
    let loops = nest(
        &["(loop p 1000 1 1", "(loop p 1024 1 1"],
        1,
        &[&most],
        &[")", ")"],
    );
    let text = plan(1, 0, None, &[many("(leaf p 1 1)", 509), loops].concat());
    comparison.text("a wide tail of point 511", text.as_bytes());
}

pub fn compare_all(comparison: &mut Comparison) {
    totals(comparison);
    levels(comparison);
    last_point(comparison);
}
