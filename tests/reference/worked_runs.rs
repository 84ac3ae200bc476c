//! Plans with all their short runs (02, L10), worked out by hand: a line for each run, its
//! leaf numbers and its sums of C and of M. The reference's own checks and the test of the
//! program run them all.

use super::aimed::{many, task, words};
use super::worked::{smallest, EMPTY, PLAN_A, PLAN_B};
use super::worked_returns::PLAN_A_2;

pub struct Case {
    pub name: &'static str,
    pub plan: &'static str,
    pub printed: &'static str,
}

pub const CASES: &[&[Case]] = &[OF_DOCUMENT, EMPTY_PARTS, LOOPS, CALLS, ORDER, REFUSED];

/// Going round the loop leads to leaf 2, leaving it to leaf 3: more rounds come first.
const ON_PLAN_A: &str = "0 1 2 1 2 1 2 1 3 49 93\n0 1 2 1 2 1 3 37 69\n0 1 2 1 3 25 45\n\
    0 1 3 13 21\n";

const OF_DOCUMENT: &[Case] = &[
    Case {
        name: "plan A",
        plan: PLAN_A,
        printed: ON_PLAN_A,
    },
    Case {
        name: "plan A in edition 2",
        plan: PLAN_A_2,
        printed: ON_PLAN_A,
    },
    Case {
        name: "plan A with points alone",
        plan: "(task 100 4\n(fun\n(leaf p 5 9)\n(loop p 3 2 4\n(leaf p 10 20)\n)\n(leaf p 6 8)\n\
            )\n)\n",
        printed: ON_PLAN_A,
    },
    Case {
        name: "plan A without points",
        plan: "(task 100 4\n(fun\n(leaf s 5 9)\n(loop s 3 2 4\n(leaf s 10 20)\n)\n(leaf s 6 8)\n\
            )\n)\n",
        printed: ON_PLAN_A,
    },
    Case {
        name: "plan B",
        plan: PLAN_B,
        printed: "1 2 0 4 0 10 15\n1 3 4 0 15 19\n",
    },
    Case {
        name: "the smallest plan",
        plan: smallest!(19),
        printed: "0 7 9\n",
    },
    Case {
        name: "the smallest plan with a deadline that no release fits",
        plan: smallest!(9),
        printed: "0 7 9\n",
    },
    Case {
        name: "a main function without forms",
        plan: EMPTY,
        printed: "0 0\n",
    },
    Case {
        name: "a leaf that costs nothing",
        plan: "(task 9 0\n(fun\n(leaf s 0 0)\n)\n)\n",
        printed: "0 0 0\n",
    },
];

const EMPTY_PARTS: &[Case] = &[
    Case {
        name: "an if with two empty parts",
        plan: "(task 9 0\n(fun\n(if p 1 2\n(then\n)\n(else\n)\n)\n)\n)\n",
        printed: "0 1 2\n",
    },
    Case {
        name: "an if with two empty parts and a leaf behind",
        plan: "(task 9 0\n(fun\n(if p 1 2\n(then\n)\n(else\n)\n)\n(leaf s 3 5)\n)\n)\n",
        printed: "0 1 4 7\n",
    },
    Case {
        name: "three ifs with two empty parts each",
        plan:
            "(task 9 0\n(fun\n(if s 1 2\n(then\n)\n(else\n)\n)\n(if s 1 2\n(then\n)\n(else\n)\n)\n\
            (if p 1 2\n(then\n)\n(else\n)\n)\n)\n)\n",
        printed: "0 1 2 3 6\n",
    },
    Case {
        name: "an if with two empty parts in the then part of another",
        plan:
            "(task 9 0\n(fun\n(if p 1 2\n(then\n(if p 4 8\n(then\n)\n(else\n)\n)\n)\n(else\n)\n)\n\
            )\n)\n",
        printed: "0 1 2\n0 1 5 10\n",
    },
    // The run that begins the other comes before it, whichever part is the empty one.
    Case {
        name: "an empty else part at the end",
        plan: "(task 9 0\n(fun\n(if p 1 2\n(then\n(leaf s 3 5)\n)\n(else\n)\n)\n)\n)\n",
        printed: "0 1 2\n0 1 4 7\n",
    },
    Case {
        name: "an empty then part at the end",
        plan: "(task 9 0\n(fun\n(if p 1 2\n(then\n)\n(else\n(leaf s 3 5)\n)\n)\n)\n)\n",
        printed: "0 1 2\n0 1 4 7\n",
    },
    // What stands behind the if has a higher number than what is in it.
    Case {
        name: "an empty then part and a leaf behind: the else part comes first",
        plan:
            "(task 9 0\n(fun\n(if p 1 2\n(then\n)\n(else\n(leaf s 3 5)\n)\n)\n(leaf s 8 8)\n)\n)\n",
        printed: "0 1 2 12 15\n0 2 9 10\n",
    },
    Case {
        name: "an empty else part and a leaf behind: the then part comes first",
        plan:
            "(task 9 0\n(fun\n(if p 1 2\n(then\n(leaf s 3 5)\n)\n(else\n)\n)\n(leaf s 8 8)\n)\n)\n",
        printed: "0 1 2 12 15\n0 2 9 10\n",
    },
    // Its else part leads back to the loop's condition.
    Case {
        name: "an empty else part at the end of a loop: it comes first",
        plan:
            "(task 9 0\n(fun\n(loop p 1 1 2\n(if p 2 3\n(then\n(leaf s 4 9)\n)\n(else\n)\n)\n)\n)\n\
            )\n",
        printed: "0 1 2\n0 1 0 4 7\n0 1 2 0 8 16\n",
    },
];

const LOOPS: &[Case] = &[
    Case {
        name: "a loop with an empty body",
        plan: "(task 9 0\n(fun\n(loop p 2 1 3\n)\n)\n)\n",
        printed: "0 1 3\n0 0 2 6\n0 0 0 3 9\n",
    },
    Case {
        name: "a loop with an empty body and a leaf behind",
        plan: "(task 99 0\n(fun\n(loop s 2 1 3\n)\n(leaf p 10 20)\n)\n)\n",
        printed: "0 0 0 1 13 29\n0 0 1 12 26\n0 1 11 23\n",
    },
    Case {
        name: "a loop at the end: each number of rounds begins the next",
        plan: "(task 99 0\n(fun\n(loop s 2 1 3\n(leaf s 10 20)\n)\n)\n)\n",
        printed: "0 1 3\n0 1 0 12 26\n0 1 0 1 0 23 49\n",
    },
    Case {
        name: "a loop in a loop",
        plan: "(task 99 0\n(fun\n(loop p 2 1 2\n(loop p 1 1 3\n(leaf p 3 5)\n)\n)\n)\n)\n",
        printed: "0 1 2\n0 1 0 3 7\n0 1 0 1 0 5 12\n0 1 0 1 2 1 0 9 20\n0 1 2 1 0 7 15\n\
            0 1 2 1 0 1 0 9 20\n0 1 2 1 0 1 2 1 0 13 28\n",
    },
    // Leaving the inner loop leads back to the lower number.
    Case {
        name: "a loop with an empty body in a loop",
        plan: "(task 99 0\n(fun\n(loop p 1 1 2\n(loop s 1 4 5\n)\n)\n)\n)\n",
        printed: "0 1 2\n0 1 0 6 9\n0 1 1 0 10 14\n",
    },
    // A round is 2 + 1 + 3 or 4 + 1 + 3.
    Case {
        name: "an if in a loop",
        plan: "(task 99 0\n(fun\n(loop p 2 1 1\n(if p 3 3\n(then\n(leaf s 2 5)\n)\n(else\n\
            (leaf s 4 4)\n)\n)\n)\n)\n)\n",
        printed: "0 1 1\n0 1 2 0 7 10\n0 1 2 0 1 2 0 13 19\n0 1 2 0 1 3 0 15 18\n0 1 3 0 9 9\n\
            0 1 3 0 1 2 0 15 18\n0 1 3 0 1 3 0 17 17\n",
    },
];

const CALLS: &[Case] = &[
    Case {
        name: "a call of an empty function",
        plan: "(task 99 0\n(fun\n)\n(fun\n(call s 0 2 3)\n(leaf s 5 7)\n)\n)\n",
        printed: "0 1 7 10\n",
    },
    Case {
        name: "a call of an empty function and nothing else",
        plan: "(task 99 0\n(fun\n)\n(fun\n(call p 0 2 3)\n)\n)\n",
        printed: "0 2 3\n",
    },
    // The leaf of the call is visited, so the parts tell the runs apart.
    Case {
        name: "calls of an empty function in both parts",
        plan: "(task 99 0\n(fun\n)\n(fun\n(if p 1 1\n(then\n(call s 0 2 3)\n)\n(else\n\
            (call s 0 4 6)\n)\n)\n)\n)\n",
        printed: "0 1 3 4\n0 2 5 7\n",
    },
    Case {
        name: "two calls of an if with two empty parts",
        plan: "(task 99 0\n(fun\n(if s 1 2\n(then\n)\n(else\n)\n)\n)\n(fun\n(call s 0 3 4)\n\
            (call s 0 5 6)\n)\n)\n",
        printed: "1 0 2 0 10 14\n",
    },
    Case {
        name: "two calls of an if with one empty part",
        plan: "(task 99 0\n(fun\n(if s 1 2\n(then\n)\n(else\n(leaf s 20 40)\n)\n)\n)\n(fun\n\
            (call s 0 3 4)\n(call s 0 5 6)\n)\n)\n",
        printed: "2 0 1 3 0 30 54\n2 0 1 3 0 1 50 94\n2 0 3 0 10 14\n2 0 3 0 1 30 54\n",
    },
    // The leaf of a call comes before what it calls, whose numbers are lower.
    Case {
        name: "a leaf in the then part, a call in the else part",
        plan: "(task 99 0\n(fun\n(leaf s 1 1)\n)\n(fun\n(if s 2 3\n(then\n(leaf s 4 5)\n)\n(else\n\
            (call s 0 6 7)\n)\n)\n(leaf s 8 9)\n)\n)\n",
        printed: "1 2 4 14 17\n1 3 0 4 17 20\n",
    },
    Case {
        name: "a call in the then part, a leaf in the else part",
        plan: "(task 99 0\n(fun\n(leaf s 1 1)\n)\n(fun\n(if s 2 3\n(then\n(call s 0 6 7)\n)\n\
            (else\n(leaf s 4 5)\n)\n)\n(leaf s 8 9)\n)\n)\n",
        printed: "1 2 0 4 17 20\n1 3 4 14 17\n",
    },
    Case {
        name: "an empty then part, a call in the else part: it comes first",
        plan: "(task 99 0\n(fun\n(leaf s 1 1)\n)\n(fun\n(if s 2 3\n(then\n)\n(else\n\
            (call s 0 6 7)\n)\n)\n(leaf s 8 9)\n)\n)\n",
        printed: "1 2 0 3 17 20\n1 3 10 12\n",
    },
    // Leaving the called loop leads to a higher number, that of the loop that calls.
    Case {
        name: "a loop that is called in a loop",
        plan: "(task 99 0\n(fun\n(loop s 1 1 3\n)\n)\n(fun\n(loop s 1 2 5\n(call s 0 4 6)\n)\n\
            )\n)\n",
        printed: "1 2 5\n1 2 0 0 1 10 22\n1 2 0 1 9 19\n",
    },
    Case {
        name: "calls through three functions",
        plan: "(task 99 0\n(fun\n(leaf s 1 1)\n)\n(fun\n(call s 0 2 2)\n(if s 3 4\n(then\n)\n\
            (else\n(call s 0 4 8)\n)\n)\n)\n(fun\n(call s 1 5 9)\n)\n)\n",
        printed: "4 1 0 2 11 16\n4 1 0 2 3 0 16 25\n",
    },
];

const ORDER: &[Case] = &[
    Case {
        name: "2 before 10",
        plan: "(task 99 0\n(fun\n(leaf s 1 1)\n(if s 1 1\n(then\n(leaf s 1 2)\n(leaf s 1 2)\n\
            (leaf s 1 2)\n(leaf s 1 2)\n(leaf s 1 2)\n(leaf s 1 2)\n(leaf s 1 2)\n(leaf s 1 2)\n)\n\
            (else\n(leaf s 1 3)\n)\n)\n(leaf s 1 4)\n)\n)\n",
        printed: "0 1 2 3 4 5 6 7 8 9 11 11 22\n0 1 10 11 4 9\n",
    },
    Case {
        name: "9 before 10",
        plan: "(task 99 0\n(fun\n(if s 1 1\n(then\n(leaf s 1 2)\n(leaf s 1 2)\n(leaf s 1 2)\n\
            (leaf s 1 2)\n(leaf s 1 2)\n(leaf s 1 2)\n(leaf s 1 2)\n)\n(else\n(if s 2 4\n(then\n\
            (leaf s 1 6)\n)\n(else\n(leaf s 3 3)\n)\n)\n)\n)\n)\n)\n",
        printed: "0 1 2 3 4 5 6 7 8 15\n0 8 9 4 11\n0 8 10 6 8\n",
    },
    // The parts of each if take 1 alone, and 2 or 3 under load.
    Case {
        name: "three ifs in a row",
        plan: "(task 99 0\n(fun\n(if p 1 1\n(then\n(leaf s 1 2)\n)\n(else\n(leaf s 1 3)\n)\n)\n\
            (if p 1 1\n(then\n(leaf p 1 2)\n)\n(else\n(leaf p 1 3)\n)\n)\n\
            (if s 1 1\n(then\n(leaf s 1 2)\n)\n(else\n(leaf p 1 3)\n)\n)\n)\n)\n",
        printed: "0 1 3 4 6 7 6 9\n0 1 3 4 6 8 6 10\n0 1 3 5 6 7 6 10\n0 1 3 5 6 8 6 11\n\
            0 2 3 4 6 7 6 10\n0 2 3 4 6 8 6 11\n0 2 3 5 6 7 6 11\n0 2 3 5 6 8 6 12\n",
    },
    // The first difference decides, not the number of visits.
    Case {
        name: "a long then part and a short else part",
        plan: "(task 99 0\n(fun\n(if s 1 1\n(then\n(leaf s 1 1)\n(leaf s 1 1)\n(leaf s 1 1)\n\
            )\n(else\n(leaf s 1 1)\n)\n)\n)\n)\n",
        printed: "0 1 2 3 4 4\n0 4 2 2\n",
    },
];

const REFUSED: &[Case] = &[
    Case {
        name: "no text",
        plan: "",
        printed: "refused 2 1\n",
    },
    Case {
        name: "a bound of 0",
        plan: "(task 99 0\n(fun\n(loop s 0 1 1\n)\n)\n)\n",
        printed: "refused 3 3\n",
    },
    Case {
        name: "a point that costs nothing",
        plan: "(task 99 0\n(fun\n(leaf s 0 1)\n(leaf p 0 1)\n)\n)\n",
        printed: "refused 19 4\n",
    },
    Case {
        name: "a function that no call names",
        plan: "(task 99 0\n(fun\n)\n(fun\n)\n)\n",
        printed: "refused 9 0\n",
    },
    Case {
        name: "a last line without a line feed",
        plan: "(task 99 0\n(fun\n)\n)",
        printed: "refused 2 4\n",
    },
    // 02, L13: the tool refuses a chain.
    Case {
        name: "a chain of plans",
        plan: "(chain 99\n(task 99 0\n(fun\n)\n)\n(task 99 0\n(fun\n)\n)\n)\n",
        printed: "refused 2 1\n",
    },
];

/// A case whose plan is made.
pub struct Built {
    pub name: &'static str,
    pub plan: String,
    pub printed: String,
}

/// The line of a run that visits these leaves, with its sums.
fn line(leaves: impl IntoIterator<Item = usize>, isolated: usize, loaded: usize) -> String {
    let leaves = leaves.into_iter().map(|leaf| format!("{leaf} "));
    format!("{}{isolated} {loaded}\n", leaves.collect::<String>())
}

/// Leaves that take a tick alone and two under load, in a row.
fn row(count: usize) -> Vec<String> {
    many("(leaf s 1 2)", count)
}

/// Such leaves between these lines.
fn inside(open: &[&str], count: usize, close: &[&str]) -> Vec<String> {
    [words(open), row(count), words(close)].concat()
}

/// An if that takes as much, with such leaves in its parts.
fn parts(by_then: usize, by_else: usize) -> Vec<String> {
    let then_part = inside(&["(if p 1 2", "(then"], by_then, &[")"]);
    [then_part, inside(&["(else"], by_else, &[")", ")"])].concat()
}

fn built(name: &'static str, functions: &[Vec<String>], printed: String) -> Built {
    Built {
        name,
        plan: task(functions),
        printed,
    }
}

/// The line of a run whose visits take a tick each, and two under load.
fn even(leaves: impl IntoIterator<Item = usize>) -> String {
    let leaves: Vec<usize> = leaves.into_iter().collect();
    let count = leaves.len();
    line(leaves, count, 2 * count)
}

/// Runs of 64 visits and of 65.
fn of_rows() -> Vec<Built> {
    let calls = |count, times| [row(count), many("(call s 0 1 2)", times)];
    let empty_if = ["(if s 1 2", "(then", ")", "(else", ")", ")"];
    let empty_ifs = |count: usize| [words(&empty_if.repeat(count))];
    let none = String::new;
    vec![
        built("64 leaves", &[row(64)], even(0..64)),
        built("65 leaves", &[row(65)], none()),
        built("512 leaves", &[row(512)], none()),
        built(
            "a call of 63 leaves",
            &calls(63, 1),
            even((63..64).chain(0..63)),
        ),
        built("a call of 64 leaves", &calls(64, 1), none()),
        built(
            "two calls of 31 leaves",
            &calls(31, 2),
            even((31..32).chain(0..31).chain(32..33).chain(0..31)),
        ),
        built("two calls of 32 leaves", &calls(32, 2), none()),
        built("30 empty ifs", &empty_ifs(30), even(0..30)),
        built("64 empty ifs", &empty_ifs(64), even(0..64)),
        built("65 empty ifs", &empty_ifs(65), none()),
        // 2^26.
        built(
            "64 leaves that take most",
            &[many("(leaf p 1048576 1048576)", 64)],
            line(0..64, 67_108_864, 67_108_864),
        ),
    ]
}

/// An if behind a then part that is too long, with leaves 99 and 100 in its parts.
fn behind_97() -> Vec<String> {
    let long = inside(&["(if s 1 2", "(then"], 97, &[")", "(else"]);
    [long, parts(1, 1), words(&[")", ")"])].concat()
}

/// Ifs of which a part or both have too many visits.
fn of_parts() -> Vec<Built> {
    let none = String::new;
    vec![
        built(
            "both parts fit",
            &[parts(63, 63)],
            even(0..64) + &even((0..1).chain(64..127)),
        ),
        built("the then part is too long", &[parts(64, 1)], even([0, 65])),
        built("the else part is too long", &[parts(1, 64)], even([0, 1])),
        built("the last of 512 leaves", &[parts(510, 1)], even([0, 511])),
        built("a long part and an empty one", &[parts(64, 0)], even([0])),
        built("an empty part and a long one", &[parts(0, 64)], even([0])),
        built("both parts are too long", &[parts(64, 64)], none()),
        built(
            "both parts fit with what follows",
            &[[parts(61, 61), row(2)].concat()],
            even((0..62).chain(123..125)) + &even((0..1).chain(62..125)),
        ),
        built(
            "both parts are too long by what follows",
            &[[parts(61, 61), row(3)].concat()],
            none(),
        ),
        built(
            "99 before 100",
            &[behind_97()],
            even([0, 98, 99]) + &even([0, 98, 100]),
        ),
    ]
}

/// Loops that could go round more often than a short run does.
fn of_loops() -> Vec<Built> {
    let empty = |bound: usize| [words(&[&format!("(loop p {bound} 1 2"), ")"])];
    let alone = |rounds: usize| even(vec![0; rounds]);
    let before_leaf = |rounds: usize| {
        let leaves = [vec![0; rounds], vec![1]].concat();
        line(leaves, rounds + 10, 2 * rounds + 20)
    };
    let around_leaf = |rounds: usize| {
        let leaves = [[0, 1].repeat(rounds), vec![0]].concat();
        line(leaves, 11 * rounds + 1, 22 * rounds + 2)
    };
    let (most, leaf) = ("(loop p 65535 1 2", "(leaf s 10 20)");
    vec![
        built(
            "65,535 rounds",
            &empty(65_535),
            (1..=64).map(alone).collect(),
        ),
        built("63 rounds", &empty(63), (1..=64).map(alone).collect()),
        built("62 rounds", &empty(62), (1..=63).map(alone).collect()),
        built(
            "65,535 rounds before a leaf",
            &[words(&[most, ")", leaf])],
            (1..=63).rev().map(before_leaf).collect(),
        ),
        built(
            "65,535 rounds around a leaf",
            &[words(&[most, leaf, ")"])],
            (0..=31).map(around_leaf).collect(),
        ),
        built(
            "rounds of 63 visits",
            &[inside(&[most], 62, &[")"])],
            even([0]) + &even((0..63).chain(0..1)),
        ),
        built(
            "rounds of 64 visits",
            &[inside(&[most], 63, &[")"])],
            even([0]),
        ),
    ]
}

/// The plans that are made.
pub fn made() -> Vec<Built> {
    let all = [of_rows(), of_parts(), of_loops()];
    all.into_iter().flatten().collect()
}
