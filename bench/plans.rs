//! The plans that are measured.

use trials::worked::PLAN_A;
use trials::worked_returns::PLAN_A_2;

use crate::memory::{Head, Leaf, Ruling};
use crate::reference;

pub const SIZES: [usize; 5] = [1, 16, 64, 256, 512];

/// Loops in one another, so that the innermost body has level 32.
const NESTED: usize = 31;

const MOST_TIME: u64 = 1 << 40;

const LEAVES_OF_PLAN_A: usize = 4;

#[derive(Clone, Copy, PartialEq, Eq)]
pub enum Shape {
    /// Points, silent leaves, ifs and calls one after the other.
    Shallow,
    /// Loops in one another as deep as may be, the other leaves spread over the levels.
    Deep,
    /// One point, with silent leaves, ifs and loops before and behind it.
    Silent,
    /// As shallow ones, in edition 2.
    Returning,
}

pub const SHAPES: [(Shape, &str); 4] = [
    (Shape::Shallow, "shallow"),
    (Shape::Deep, "deep"),
    (Shape::Silent, "silent"),
    (Shape::Returning, "returning"),
];

/// A plan with its table.
pub struct Plan {
    pub shape: &'static str,
    pub leaves: usize,
    pub text: Vec<u8>,
    pub row: Vec<Leaf>,
    pub head: Head,
}

/// Lines of seven leaves.
const UNIT: [&str; 12] = [
    "(leaf p 3 5)",
    "(leaf s 4 9)",
    "(if p 2 3",
    "(then",
    "(leaf s 7 8)",
    ")",
    "(else",
    "(leaf p 5 11)",
    ")",
    ")",
    "(leaf s 6 6)",
    "(call p 0 1 2)",
];

/// Leaves of a unit, and of the function that it calls.
const UNIT_LEAVES: usize = 7;
const CALLED: [&str; 2] = ["(leaf p 2 4)", "(leaf s 3 7)"];

fn shallow(leaves: usize) -> String {
    let mut lines = Vec::new();
    let mut left = leaves;
    if left > UNIT_LEAVES + CALLED.len() {
        lines.push("(fun");
        lines.extend(CALLED);
        lines.push(")");
        left -= CALLED.len();
    }
    lines.push("(fun");
    while left >= UNIT_LEAVES && leaves > UNIT_LEAVES + CALLED.len() {
        lines.extend(UNIT);
        left -= UNIT_LEAVES;
    }
    lines.extend(vec!["(leaf p 1 2)"; left]);
    lines.push(")");
    lines.join("\n")
}

/// What stands at a level beside the next loop: points and silent leaves by turns.
fn leaves_at(level: usize, count: usize) -> Vec<&'static str> {
    let lines = ["(leaf p 1 2)", "(leaf s 0 2)", "(leaf s 1 1)"];
    (0..count)
        .map(|k| lines[(level + k) % lines.len()])
        .collect()
}

fn deep(leaves: usize) -> String {
    let loops = NESTED.min(leaves - leaves / 2);
    let levels = loops + 1;
    let others = leaves - loops;
    let mut opening = vec!["(fun"];
    let mut closing = Vec::new();
    for level in 0..levels {
        let here = leaves_at(
            level,
            others * (level + 1) / levels - others * level / levels,
        );
        let (before, behind) = here.split_at(here.len() / 2);
        opening.extend(before);
        closing.push(")");
        closing.extend(behind.iter().rev());
        if level < loops {
            opening.push("(loop p 2 1 1");
        }
    }
    closing.reverse();
    opening.extend(closing);
    opening.join("\n")
}

/// Lines of six silent leaves.
const SILENT_UNIT: [&str; 12] = [
    "(leaf s 3 5)",
    "(if s 2 3",
    "(then",
    "(leaf s 7 8)",
    ")",
    "(else",
    "(leaf s 5 11)",
    ")",
    ")",
    "(loop s 2 1 1",
    "(leaf s 1 2)",
    ")",
];

const SILENT_LEAVES: usize = 6;

fn silent_lines(leaves: usize) -> Vec<&'static str> {
    let mut lines = SILENT_UNIT.repeat(leaves / SILENT_LEAVES);
    lines.extend(vec!["(leaf s 1 2)"; leaves % SILENT_LEAVES]);
    lines
}

fn silent(leaves: usize) -> String {
    let behind = (leaves - 1) / 2;
    let mut lines = vec!["(fun"];
    lines.extend(silent_lines(leaves - 1 - behind));
    lines.push("(leaf p 1 2)");
    lines.extend(silent_lines(behind));
    lines.push(")");
    lines.join("\n")
}

fn table(text: &[u8], leaves: usize) -> (Vec<Leaf>, Head) {
    let mut row = vec![Leaf::default(); leaves];
    let mut head = Head::default();
    let ruling = reference::read(text, &mut row, &mut head);
    assert_eq!(
        ruling,
        Ruling { number: 0, line: 0 },
        "a plan of the benchmark is refused"
    );
    assert_eq!(
        head.leaves, leaves,
        "a plan of the benchmark has other leaves"
    );
    (row, head)
}

pub fn plan(shape: (Shape, &'static str), leaves: usize) -> Plan {
    let functions = match shape.0 {
        Shape::Shallow | Shape::Returning => shallow(leaves),
        Shape::Deep => deep(leaves),
        Shape::Silent => silent(leaves),
    };
    let switching = 4;
    let resume = match shape.0 {
        Shape::Returning => " 1",
        _ => "",
    };
    let text = |deadline: u64| {
        format!("(task {deadline} {switching}{resume}\n{functions}\n)\n").into_bytes()
    };
    // Between what the plan takes alone and under load, so that decisions turn in the course of a run.
    let (_, head) = table(&text(MOST_TIME), leaves);
    let text = text(head.total + switching + (head.max_load_total - head.total) / 2);
    let (row, head) = table(&text, leaves);
    Plan {
        shape: shape.1,
        leaves,
        text,
        row,
        head,
    }
}

pub fn plans() -> Vec<Plan> {
    let sized = |shape| SIZES.into_iter().map(move |leaves| plan(shape, leaves));
    SHAPES.into_iter().flat_map(sized).collect()
}

fn of_plan_a(shape: &'static str, text: &str) -> Plan {
    let (text, leaves) = (text.as_bytes().to_vec(), LEAVES_OF_PLAN_A);
    let (row, head) = table(&text, leaves);
    Plan {
        shape,
        leaves,
        text,
        row,
        head,
    }
}

/// Plan A of document 01.
pub fn plan_a() -> Plan {
    of_plan_a("plan A", PLAN_A)
}

/// Plan A in edition 2.
pub fn plan_a_2() -> Plan {
    of_plan_a("plan A, edition 2", PLAN_A_2)
}
