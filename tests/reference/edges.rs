//! Plans at the edges of what a table holds: totals of 2^40 and one more, and
//! plans of most leaves, levels, rounds and functions. Each comes with the answer
//! worked out by hand.

use super::aimed::{many, nest, task, words};
use super::composed::Composed;
use super::gen::Random;
use super::numbers::Numbers;
use super::plan::{Form, Kind, Plan, Refusal, MOST_BOUND, MOST_COST};

const MOST_TOTAL: u64 = 1 << 40;

const LONG: Option<Refusal> = Some((10, 0));

fn silent(isolated: u64, loaded: u64, kind: Kind) -> Form {
    Form {
        leaf: 0,
        point: false,
        isolated,
        loaded,
        kind,
    }
}

/// Silent forms with this sum under load, and alone the same or 0.
fn filler(mut sum: u64, alone: bool) -> Vec<Form> {
    let leaf = |cost: u64| silent(if alone { cost } else { 0 }, cost, Kind::Leaf);
    let mut forms = Vec::new();
    while sum > MOST_COST {
        let rounds = (sum / MOST_COST).min(MOST_BOUND);
        let body = vec![leaf(MOST_COST)];
        forms.push(silent(0, 0, Kind::Loop(rounds, body)));
        sum -= rounds * MOST_COST;
    }
    forms.push(leaf(sum));
    forms
}

/// What is done with a main function that has its sum.
#[derive(Clone, Copy, PartialEq, Eq)]
enum Wrap {
    /// It stays as it is.
    Bare,
    /// It becomes a part of an if, the dearer one.
    Part,
    /// Another calls it, by a point that costs 1.
    Called,
}

fn wrapped(random: &mut Random, mut plan: Plan, wrap: Wrap) -> Plan {
    let main = plan.main();
    match wrap {
        Wrap::Bare => {}
        Wrap::Part => {
            let forms = std::mem::take(&mut plan.functions[main]);
            let cheap = vec![silent(0, 1, Kind::Leaf)];
            let parts = match random.chance(50) {
                true => Kind::If(forms, cheap),
                false => Kind::If(cheap, forms),
            };
            plan.functions[main].push(silent(0, 0, parts));
        }
        Wrap::Called => {
            let mut call = silent(1, 1, Kind::Call(main));
            call.point = true;
            plan.functions.push(vec![call]);
        }
    }
    plan.renumber();
    plan
}

/// A plan with silent forms added, so that its max-load total is 2^40 - 1, 2^40
/// and 2^40 + 1; once with the C that it has, once with every C as its M.
pub fn topped(random: &mut Random, plan: &Plan) -> Vec<(&'static str, Plan, Option<Refusal>)> {
    let mut all = Vec::new();
    for alone in [false, true] {
        let mut base = plan.clone();
        if alone {
            base.change_all(|form| form.isolated = form.loaded);
        }
        let total = Composed::new(&base).max_load_total();
        for (target, refusal) in [
            (MOST_TOTAL - 1, None),
            (MOST_TOTAL, None),
            (MOST_TOTAL + 1, LONG),
        ] {
            let wrap = random.pick(&[Wrap::Bare, Wrap::Part, Wrap::Called]);
            let own = u64::from(wrap == Wrap::Called);
            let Some(sum) = target.checked_sub(total + own) else {
                continue;
            };
            let mut plan = base.clone();
            let main = plan.main();
            let at = random.index(plan.functions[main].len() + 1);
            plan.functions[main].splice(at..at, filler(sum, alone));
            let name = match alone {
                true => "a plan with both totals at 2^40",
                false => "a plan with its max-load total at 2^40",
            };
            all.push((name, wrapped(random, plan, wrap), refusal));
        }
    }
    all
}

/// 16 functions, each called twice by the next: 2^15 times the sum of the first.
fn doubled(more: &str) -> Vec<Vec<String>> {
    let first = nest(
        &["(loop s 32 0 0"],
        1,
        &["(leaf s 1048576 1048576)"],
        &[")"],
    );
    let mut functions = vec![first];
    for before in 0..15 {
        functions.push(many(&format!("(call s {before} 0 0)"), 2));
    }
    functions[15].push(more.to_string());
    functions
}

/// 16 functions of two levels, each calling the one before in its loop.
fn towers() -> Vec<Vec<String>> {
    let called = |inner: String| nest(&["(loop p 2 1 3"], 1, &[&inner], &[")"]);
    let mut functions = vec![called("(leaf s 1 2)".to_string())];
    for before in 0..15 {
        functions.push(called(format!("(call p {before} 2 5)")));
    }
    functions
}

/// Ifs in ifs down to 64 open brackets, forms before and behind each.
fn deep_ifs() -> Vec<String> {
    nest(
        &["(leaf s 1 6)", "(if s 2 3", "(then", "(leaf p 1 2)"],
        31,
        &["(leaf s 9 9)"],
        &[")", "(else", "(leaf s 4 5)", ")", ")", "(leaf s 3 8)"],
    )
}

/// 16 functions of 32 leaves; the last calls all others.
fn broad() -> Vec<Vec<String>> {
    let mut functions = vec![many("(leaf s 5 7)", 32); 15];
    let mut main = many("(leaf p 1 1)", 17);
    main.extend((0..15).map(|function| format!("(call s {function} 1 2)")));
    functions.push(main);
    functions
}

/// A plan by its functions, under a name and with its answer.
type Case = (&'static str, Vec<Vec<String>>, Option<Refusal>);

/// Plans of most leaves, brackets, levels and functions.
fn of_leaves() -> Vec<Case> {
    let silent = vec![many("(leaf s 1023 2047)", 512)];
    let points = vec![many("(leaf p 1 1048576)", 512)];
    let mixed = vec![nest(&["(leaf p 1 2)", "(leaf s 3 5)"], 256, &[], &[])];
    let (quiet, loud) = (["(loop s 9 2 3", ")"], ["(loop p 7 1 4", ")"]);
    let loops = vec![nest(&quiet, 256, &[], &loud)];
    // The else part is dearer alone, the then part under load.
    let choice = [
        "(if p 1 2",
        "(then",
        "(leaf s 3 90)",
        ")",
        "(else",
        "(leaf s 50 60)",
        ")",
        ")",
    ];
    let choices = vec![words(&choice.repeat(168))];
    let calls = vec![
        words(&["(leaf p 3 4)", "(leaf s 5 6)"]),
        many("(call p 0 1 2)", 510),
    ];
    vec![
        ("512 silent leaves", silent, None),
        ("512 points", points, None),
        ("512 leaves, points and silent ones", mixed, None),
        ("512 loops with empty bodies", loops, None),
        ("504 leaves in ifs", choices, None),
        ("510 calls of one function", calls, None),
        ("64 open brackets", vec![deep_ifs()], None),
        ("32 levels by calls", towers(), None),
        ("16 functions of 32 leaves", broad(), None),
    ]
}

/// One function of these loops, each in the body of the one before, and a leaf.
fn rounds(opens: &[&str], leaf: &str) -> Vec<Vec<String>> {
    let closes = vec![")"; opens.len()];
    vec![words(&[opens, &[leaf], &closes].concat())]
}

/// Plans of most rounds, and totals at 2^40 by loops and calls.
fn of_rounds() -> Vec<Case> {
    let free = ["(loop s 65535 0 0"; 31];
    let mut dear = free;
    dear[0] = "(loop p 65535 16 1024";
    let reported = ["(loop p 65535 1 1"; 3];
    let two = &reported[..2];
    let quiet = rounds(&free, "(leaf s 0 0)");
    let dear = rounds(&dear, "(leaf s 0 0)");
    let over = rounds(&free, "(leaf s 0 1)");
    let loud = rounds(&["(loop p 2 1 1"; 31], "(leaf p 1 1)");
    let near = rounds(two, "(leaf s 1 255)");
    let past = rounds(two, "(leaf s 1 256)");
    let three = rounds(&reported, "(leaf s 0 0)");
    let costless = rounds(&["(loop p 65535 0 0"; 31], "(leaf p 0 0)");
    vec![
        ("31 free loops of most rounds", quiet, None),
        // 16 + 65,535 * 16 = 2^20 alone, 2^26 under load.
        ("a dear loop around 30 others", dear, None),
        ("31 loops of most rounds, cost 1", over, LONG),
        // 2^33 - 3: the leaf takes 1, each loop 3 more than twice what is inside.
        ("31 reported loops of two rounds", loud, None),
        // 1 + 2 * 65,535 + 65,535^2 * 256 is 33,423,105 below 2^40, less than 65,535^2.
        ("65,535^2 * 256", near, None),
        ("65,535^2 * 257", past, LONG),
        ("three reported loops of most rounds", three, LONG),
        ("31 loops that cost nothing", costless, Some((19, 3))),
        // 32 * 2^20 * 2^15 = 2^40.
        ("2^40 by calls", doubled("(leaf s 0 0)"), None),
        ("2^40 + 1 by calls", doubled("(leaf s 0 1)"), LONG),
        (
            "2^40 + 1 by calls, alone too",
            doubled("(leaf p 1 1)"),
            LONG,
        ),
    ]
}

/// All of them, as texts.
pub fn largest() -> Vec<(&'static str, Vec<u8>, Option<Refusal>)> {
    let cases = of_leaves().into_iter().chain(of_rounds());
    cases
        .map(|(name, functions, refusal)| (name, task(&functions).into_bytes(), refusal))
        .collect()
}
