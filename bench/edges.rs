//! Texts and tables with what document 01 says of them: each limit just kept and just passed.

use crate::memory::{Head, Leaf, Ruling, IF, LOOP};
use crate::reference;

/// What follows the line of an if with empty parts.
const PARTS: [&str; 5] = ["(then", ")", "(else", ")", ")"];

fn task(functions: &[Vec<&str>]) -> String {
    let function = |lines: &Vec<&str>| format!("(fun\n{})\n", joined(lines));
    let functions: String = functions.iter().map(function).collect();
    format!("(task 1099511627776 1048576\n{functions})\n")
}

fn joined(lines: &[&str]) -> String {
    lines.iter().map(|line| format!("{line}\n")).collect()
}

fn one(lines: &[&str]) -> String {
    task(&[lines.to_vec()])
}

/// Lines opened so often, one inside, and as many closed.
fn nested<'a>(open: &[&'a str], count: usize, inner: &'a str, close: &[&'a str]) -> Vec<&'a str> {
    let mut lines = open.repeat(count);
    lines.push(inner);
    lines.extend(close.repeat(count));
    lines
}

fn loops(count: usize, inner: &str) -> Vec<&str> {
    nested(&["(loop p 1 1 1"], count, inner, &[")"])
}

fn ifs(count: usize, inner: &str) -> Vec<&str> {
    nested(
        &["(if s 1 1", "(then"],
        count,
        inner,
        &[")", "(else", ")", ")"],
    )
}

/// So many functions, each called by the next; then one that calls the last.
fn chain(count: usize) -> String {
    let calls: Vec<String> = (0..count).map(|f| format!("(call p {f} 1 1)")).collect();
    let mut functions = vec![vec![]];
    functions.extend(calls.iter().map(|line| vec![line.as_str()]));
    task(&functions)
}

/// First lines, with a function without leaves or none behind.
fn task_lines() -> Vec<(String, u64, u64)> {
    let empty = |line: &str| format!("{line}\n(fun\n)\n)\n");
    vec![
        ("(task 1 0\n)\n".to_string(), 2, 2),
        (empty("(task 0 0"), 3, 1),
        (empty("(task 1 1048577"), 3, 1),
        (empty("(task 1 0"), 0, 0),
        (empty("(task 1 0 0"), 0, 0),
        (empty("(task 1 0 1048576"), 0, 0),
        (empty("(task 1 0 1048577"), 3, 1),
        (empty("(task 1 0 01"), 2, 1),
        (empty("(task 1 0 1 1"), 2, 1),
    ]
}

/// Other lines, and texts that end early or go on.
fn lines() -> Vec<(String, u64, u64)> {
    let refused = |line, number| (one(&[line]), number, 3);
    let leaf_after = |text: &str| format!("{}{text}", one(&["(leaf s 1 1)"]));
    let short = one(&["(leaf s 1 1)"]);
    let short = short[..short.len() - 2].to_string();
    vec![
        (one(&["(leaf p 1 1048576)"]), 0, 0),
        refused("(leaf p 1 1048577)", 3),
        refused("(leaf p 99999999999999999999999999 1)", 3),
        // 2^64 + 5.
        refused("(leaf p 1 18446744073709551621)", 3),
        refused("(leaf p 2 1)", 5),
        refused("(leaf p 02 3)", 2),
        refused("(leaf q 2 3)", 2),
        refused("(leaf p 2  3)", 2),
        refused("(leaf p 2 3", 2),
        refused("(loop p 0 1 1", 3),
        refused("(loop p 65536 1 1", 3),
        refused("(call p 16 1 1)", 3),
        refused("(call p 0 1 1)", 6),
        refused("(call p 0 2 1)", 5),
        refused("(then", 2),
        (one(&["(if p 1 1", ")"]), 2, 4),
        (one(&["(if p 1 1", "(then", ")", ")"]), 2, 6),
        (String::new(), 2, 1),
        (leaf_after("\n"), 2, 6),
        (leaf_after("(fun\n"), 2, 6),
        (short.clone(), 2, 5),
        (format!("{short})"), 2, 5),
        (" ".repeat(65_537), 1, 0),
        (" ".repeat(65_536), 2, 1),
    ]
}

/// Rule 19 by itself, behind the rules before it and before those behind it; silent leaves that cost nothing are accepted.
fn costless() -> Vec<(String, u64, u64)> {
    let refused = |line, number| (one(&[line]), number, 3);
    let full = [vec!["(leaf s 0 1)"; 512], vec!["(leaf p 0 1)"]].concat();
    vec![
        refused("(leaf p 0 0)", 19),
        refused("(leaf p 0 1)", 19),
        refused("(loop p 1 0 1", 19),
        refused("(if p 0 1", 19),
        (task(&[vec![], vec!["(call p 0 0 1)"]]), 19, 5),
        refused("(leaf p 0 1", 2),
        refused("(leaf p 0 1048577)", 3),
        refused("(loop p 0 0 1", 3),
        (one(&full), 4, 515),
        refused("(call p 0 0 1)", 19),
        (one(&loops(32, "(leaf p 0 1)")), 19, 35),
        (one(&ifs(31, "(loop p 1 0 1")), 19, 65),
        (one(&["(loop s 1 0 0", "(leaf p 0 1)", ")"]), 19, 4),
        (one(&["(leaf s 0 0)", "(leaf s 0 1)"]), 0, 0),
        (one(&["(loop s 1 0 1", ")"]), 0, 0),
        (one(&[&["(if s 0 1"][..], &PARTS].concat()), 0, 0),
        (task(&[vec![], vec!["(call s 0 0 1)"]]), 0, 0),
    ]
}

/// Rules 4 and 7.
fn limits() -> Vec<(String, u64, u64)> {
    let chained = |levels: usize, loops_in: usize| {
        task(&[
            loops(levels - 1, "(leaf p 1 1)"),
            loops(loops_in, "(call p 0 1 1)"),
        ])
    };
    vec![
        (one(&vec!["(leaf p 1 1)"; 512]), 0, 0),
        (one(&vec!["(leaf p 1 1)"; 513]), 4, 515),
        (chain(15), 0, 0),
        (chain(16), 4, 49),
        (one(&loops(31, "(leaf p 1 1)")), 0, 0),
        (one(&loops(32, "(leaf p 1 1)")), 7, 35),
        (one(&ifs(31, "(leaf p 1 1)")), 0, 0),
        (one(&ifs(31, "(if s 1 1")), 7, 65),
        (one(&ifs(31, "(loop s 1 1 1")), 7, 65),
        (
            one(&[vec!["(loop p 1 1 1"], ifs(30, "(if s 1 1\n(then")].concat()),
            7,
            65,
        ),
        (chained(16, 15), 0, 0),
        (chained(16, 16), 7, 52),
    ]
}

/// Rules 8 to 10.
fn wholes() -> Vec<(String, u64, u64)> {
    let rounds =
        |cost: &'static str| one(&["(loop s 65535 0 0", "(loop s 256 0 0", cost, ")", ")"]);
    vec![
        (one(&["(loop s 1 0 0", "(leaf p 1 1)", ")"]), 8, 0),
        (
            one(&["(if s 0 0", "(then", "(leaf p 1 1)", ")", "(else", ")", ")"]),
            0,
            0,
        ),
        (task(&[vec!["(leaf p 1 1)"], vec!["(call s 0 0 0)"]]), 8, 0),
        (task(&[vec!["(leaf s 0 1)"], vec!["(call s 0 0 0)"]]), 0, 0),
        (task(&[vec!["(leaf s 0 1)"], vec!["(leaf s 0 1)"]]), 9, 0),
        // 65,535 * 256 * 65,537 is 2^40 - 256.
        (rounds("(leaf s 65537 65537)"), 0, 0),
        (rounds("(leaf s 0 65538)"), 10, 0),
        (rounds("(leaf s 65538 65538)"), 10, 0),
    ]
}

/// Each text with its ruling.
pub fn texts() -> Vec<(Vec<u8>, Ruling)> {
    let all = [task_lines(), lines(), costless(), limits(), wholes()];
    let all = all.into_iter().flatten();
    all.map(|(text, number, line)| (text.into_bytes(), Ruling { number, line }))
        .collect()
}

/// A table that is right but for a limit that it passes.
pub struct Passed {
    pub row: Vec<Leaf>,
    pub head: Head,
}

/// The table of an accepted text. Where all costs are 0 its derived numbers are, however its forms lie.
fn table(text: &str) -> Passed {
    let mut row = vec![Leaf::default(); 512];
    let mut head = Head::default();
    let ruling = reference::read(text.as_bytes(), &mut row, &mut head);
    assert_eq!(ruling.number, 0, "a text at a limit is refused");
    row.truncate(head.leaves);
    Passed { row, head }
}

/// Makes a loop of this leaf, and the leaves behind it, so many, its body.
fn wrap(mut table: Passed, at: usize, body: usize) -> Passed {
    table.row[at].kind = LOOP;
    table.row[at].detail = 1;
    table.row[at].after = (at + 1 + body) as u64;
    for leaf in &mut table.row[at + 1..=at + body] {
        leaf.level += 1;
    }
    table
}

/// Makes an if with empty parts of this leaf.
fn choose(mut table: Passed, at: usize) -> Passed {
    table.row[at].kind = IF;
    table.row[at].other = (at + 1) as u64;
    table
}

/// Level 33; level 33 by a call; a 65th bracket by a loop, by an if, and by the part of an if.
fn too_deep() -> Vec<Passed> {
    let loops = |count, inner| nested(&["(loop s 1 0 0"], count, inner, &[")"]);
    let two = "(leaf s 0 0)\n(leaf s 0 0)";
    let called = task(&[loops(15, two), loops(15, "(call s 0 0 0)")]);
    let free_ifs = |count| {
        let open = ["(if s 0 0", "(then"];
        nested(&open, count, "(leaf s 0 0)", &[")", "(else", ")", ")"])
    };
    let full = one(&free_ifs(31));
    let one_left = one(&[vec!["(loop s 1 0 0"], free_ifs(30), vec![")"]].concat());
    vec![
        wrap(table(&one(&loops(31, two))), 31, 1),
        wrap(table(&called), 15, 1),
        wrap(table(&full), 31, 0),
        choose(table(&full), 31),
        choose(table(&one_left), 31),
    ]
}

/// A point of each kind that costs nothing, and one that takes 7 ticks under load.
fn costless_points() -> Vec<Passed> {
    let kinds = [
        "(leaf s 0 0)",
        "(call s 0 0 0)",
        "(loop s 1 0 0",
        ")",
        "(if s 0 0",
    ];
    let text = task(&[vec![], [&kinds[..], &PARTS].concat()]);
    let reported = |text: &str, at: usize| {
        let mut table = table(text);
        table.row[at].point = 1;
        table
    };
    let mut all: Vec<Passed> = (0..4).map(|at| reported(&text, at)).collect();
    all.push(reported(&one(&["(leaf s 0 7)"]), 0));
    all
}

/// Heads of no edition, of edition 1 with a cost of resuming, and of edition 2 with one too large.
fn no_editions() -> Vec<Passed> {
    let with = |(edition, resume)| {
        let mut table = table(&one(&["(leaf p 1 1)"]));
        (table.head.edition, table.head.resuming) = (edition, resume);
        table
    };
    let heads = [(0, 0), (1, 1), (2, 1_048_577), (3, 0)];
    heads.into_iter().map(with).collect()
}

pub fn tables() -> Vec<Passed> {
    [too_deep(), costless_points(), no_editions()]
        .into_iter()
        .flatten()
        .collect()
}
