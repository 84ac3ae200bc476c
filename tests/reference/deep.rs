//! Plans at the caps: most leaves, levels, rounds and functions.

use super::aimed::{many, nest, task, words};
use super::composed::Composed;
use super::edition::Edition;
use super::gen::{self, Random};
use super::numbers::Numbers;
use super::plan::{self, Plan, MOST_LEAVES};

/// Loops in loops, each a point, with a point in each body.
fn loops(count: usize, bound: u64) -> Vec<String> {
    let open = format!("(loop p {bound} 1 2");
    nest(
        &[&open, "(leaf p 1 2)"],
        count,
        &["(leaf p 1 1)", "(leaf s 1 3)"],
        &["(leaf s 0 2)", ")"],
    )
}

/// 16 functions of two levels, each calling the one before in its loop.
fn towers() -> Vec<Vec<String>> {
    let called = |inner: String| nest(&["(loop p 2 1 3"], 1, &[&inner, "(leaf s 1 1)"], &[")"]);
    let mut functions = vec![called("(leaf p 1 2)".to_string())];
    for before in 0..15 {
        functions.push(called(format!("(call p {before} 2 5)")));
    }
    functions
}

/// Ifs in ifs down to 64 open brackets, points and silent leaves before and
/// behind each, in both parts.
fn ifs() -> Vec<String> {
    nest(
        &["(leaf s 1 6)", "(if s 2 3", "(then", "(leaf p 1 2)"],
        31,
        &["(leaf s 9 9)"],
        &[
            ")",
            "(else",
            "(leaf s 4 5)",
            "(leaf p 4 4)",
            ")",
            ")",
            "(leaf s 3 8)",
        ],
    )
}

/// Functions that call one another to the last, with a choice of points on the way: the
/// last point of a run is at level 16, with silent leaves behind it in each function.
fn tails() -> Vec<Vec<String>> {
    let choice = ["(if s 1 2", "(then", "(leaf p 1 3)", ")", "(else", ")", ")"];
    let mut functions = vec![words(&["(leaf p 2 9)", "(leaf s 1 4)"])];
    for before in 0..15 {
        let call = format!("(call p {before} 1 2)");
        let lines = [&choice[..], &[&call, "(leaf s 1 6)"]].concat();
        functions.push(words(&lines));
    }
    functions
}

/// One function with a loop, called over and over.
fn calls() -> Vec<Vec<String>> {
    let called = nest(&["(loop p 3 1 2"], 1, &["(leaf p 3 4)"], &[")"]);
    vec![called, many("(call p 0 1 2)", 510)]
}

/// A deadline between what the plan takes alone and what it takes under load, so
/// that decisions turn in the course of a run.
fn with_deadline(mut plan: Plan) -> Plan {
    let numbers = Composed::new(&plan);
    let (total, loaded) = (numbers.total(), numbers.max_load_total());
    plan.deadline = total + plan.switch + (loaded - total) / 3;
    plan
}

/// Two loops of most rounds, one in the other.
fn most_rounds() -> Vec<String> {
    nest(
        &["(loop p 65535 1 1", "(leaf p 1 2)"],
        2,
        &["(leaf s 3 5)"],
        &[")"],
    )
}

/// Ifs one behind the other, dear in one part under load and in the other alone.
fn choices() -> Vec<String> {
    let choice = [
        "(if p 1 2",
        "(then",
        "(leaf s 3 90)",
        ")",
        "(else",
        "(leaf p 50 60)",
        ")",
        ")",
    ];
    words(&choice.repeat(168))
}

/// The plans in this edition.
pub fn of_edition(edition: Edition) -> Vec<Plan> {
    let resume = match edition {
        Edition::First => None,
        Edition::Second => Some(2),
    };
    let plans = plans().into_iter();
    plans.map(|(_, plan)| Plan { resume, ..plan }).collect()
}

/// And so many random large ones behind them.
pub fn and_large(random: &mut Random, edition: Edition, count: usize) -> Vec<Plan> {
    let large = (0..count).map(|_| gen::large_plan(random, edition));
    of_edition(edition).into_iter().chain(large).collect()
}

/// Each with its name.
pub fn plans() -> Vec<(&'static str, Plan)> {
    let cases = [
        ("512 points", vec![many("(leaf p 1 3)", 512)]),
        ("512 silent leaves", vec![many("(leaf s 1 3)", 512)]),
        (
            "512 silent leaves, as fast under load",
            vec![many("(leaf s 3 3)", 512)],
        ),
        ("30 loops of one round", vec![loops(30, 1)]),
        ("31 loops of two rounds", vec![loops(31, 2)]),
        ("two loops of most rounds", vec![most_rounds()]),
        ("32 levels by calls", towers()),
        ("16 levels by calls to the last", tails()),
        ("64 open brackets", vec![ifs()]),
        ("504 leaves in ifs", vec![choices()]),
        ("510 calls of one function", calls()),
    ];
    let read = |name: &str, functions: &[Vec<String>]| {
        let text = task(functions);
        let plan = plan::read(text.as_bytes(), MOST_LEAVES);
        plan.unwrap_or_else(|refusal| panic!("{name}: {refusal:?}"))
    };
    cases
        .into_iter()
        .map(|(name, functions)| (name, with_deadline(read(name, &functions))))
        .collect()
}
