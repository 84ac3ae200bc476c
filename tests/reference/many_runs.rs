//! Plans with very many short runs, with their number worked out by hand.

use super::aimed::{many, nest, task, words};

pub struct Case {
    pub name: &'static str,
    pub plan: String,
    /// How many short runs it has.
    pub count: u128,
}

/// An if with a leaf in each part, dearer in the one alone and in the other under load.
const CHOICE: [&str; 8] = [
    "(if p 1 2",
    "(then",
    "(leaf s 3 90)",
    ")",
    "(else",
    "(leaf s 50 60)",
    ")",
    ")",
];

/// An if with an empty part.
const CHANCE: [&str; 7] = [
    "(if s 1 2",
    "(then",
    "(leaf p 3 90)",
    ")",
    "(else",
    ")",
    ")",
];

fn choices(count: usize) -> Vec<String> {
    words(&CHOICE.repeat(count))
}

/// These lines as the body of a loop.
fn turning(bound: u64, body: &[&str]) -> Vec<String> {
    nest(&[&format!("(loop p {bound} 1 4")], 1, body, &[")"])
}

/// Functions that call the one before twice each: in all the first one is called 16 times.
fn doubled() -> Vec<Vec<String>> {
    let calls = |before| many(&format!("(call p {before} 1 5)"), 2);
    let first = std::iter::once(choices(1));
    first.chain((0..4).map(calls)).collect()
}

/// Ifs in both parts of ifs, so many below one another, and leaves in the last ones.
fn tree(height: usize) -> String {
    if height == 0 {
        return "(leaf s 2 3)".to_string();
    }
    let part = tree(height - 1);
    format!("(if s 1 6\n(then\n{part}\n)\n(else\n{part}\n)\n)")
}

/// All of them, the longest lists first.
pub fn plans() -> Vec<Case> {
    let leaves = many("(leaf s 1 1)", 4);
    let case = |name, functions: &[Vec<String>], count| Case {
        name,
        plan: task(functions),
        count,
    };
    vec![
        // 8 ifs and a leaf on each of 2^8 ways, so 10 visits a round: up to 6 rounds, and
        // 512 leaves.
        case(
            "a tree of ifs in a loop",
            &[turning(65_535, &[&tree(8)])],
            (0..=6).map(|rounds| 1 << (8 * rounds)).sum(),
        ),
        // 64 visits each.
        case("32 ifs", &[choices(32)], 1 << 32),
        case("30 ifs", &[choices(30)], 1 << 30),
        case(
            "30 ifs and 4 leaves",
            &[[choices(30), leaves.clone()].concat()],
            1 << 30,
        ),
        case(
            "4 leaves and 30 ifs",
            &[[leaves, choices(30)].concat()],
            1 << 30,
        ),
        // As many as there are rows of twos and threes with a sum of 63 at most.
        case(
            "an if with an empty part in a loop",
            &[turning(65_535, &CHANCE)],
            82_938_843,
        ),
        // 3 visits a round: up to 21 rounds, 2^0 + 2^1 + .. + 2^21.
        case(
            "an if in a loop",
            &[turning(65_535, &CHOICE)],
            (1 << 22) - 1,
        ),
        case(
            "an if in a loop of 19 rounds",
            &[turning(19, &CHOICE)],
            (1 << 20) - 1,
        ),
        // 65 visits each.
        case(
            "32 ifs and a leaf",
            &[[choices(32), words(&["(leaf s 1 1)"])].concat()],
            0,
        ),
        // 62 visits, and one more for each leaf: at most 2 of the 62 leaves.
        case(
            "62 ifs with an empty part",
            &[words(&CHANCE.repeat(62))],
            1 + 62 + 62 * 61 / 2,
        ),
        // The if makes 2 visits, what calls it 6, 14, 30 and 62.
        case("an if that is called 16 times", &doubled(), 1 << 16),
    ]
}
