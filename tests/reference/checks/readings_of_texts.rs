//! The readings taken where documents 01 and 02 leave something open about reading
//! a plan, each with an example that tells it from the other reading.

use reference::aimed::{ifs, joined, loops, many, nest, task, words};
use reference::plan::{self, Refusal};

use super::tally::Tally;

const LEAF: &str = "(leaf s 0 0)";
const CALL: &str = "(call s 0 0 0)";

fn reads(tally: &mut Tally, reading: &str, text: &str, row: usize, wanted: Option<Refusal>) {
    let found = plan::read(text.as_bytes(), row).err();
    tally.equal(found, wanted, || format!("{reading}: {text:.200}"));
}

fn accepts(tally: &mut Tally, reading: &str, text: &str) {
    reads(tally, reading, text, 512, None);
}

fn refuses(tally: &mut Tally, reading: &str, text: &str, refusal: Refusal) {
    reads(tally, reading, text, 512, Some(refusal));
}

/// A plan of one function.
fn main(lines: &[&str]) -> String {
    task(&[words(lines)])
}

fn levels(tally: &mut Tally) {
    let only_forms = "only forms have levels";
    accepts(tally, only_forms, &task(&[loops(32, &[])]));
    refuses(tally, only_forms, &task(&[loops(32, &[LEAF])]), (7, 35));
    let of_nothing = task(&[vec![], loops(31, &[CALL])]);
    accepts(tally, only_forms, &of_nothing);
    let of_leaf = task(&[words(&[LEAF]), loops(31, &[CALL])]);
    refuses(tally, "a call adds what it calls", &of_leaf, (7, 37));
    let through = |count: usize| {
        task(&[
            loops(14, &[LEAF]),
            words(&[CALL]),
            loops(count, &["(call s 1 0 0)"]),
        ])
    };
    let heights = "heights go through all calls";
    accepts(tally, heights, &through(15));
    refuses(tally, heights, &through(16), (7, 53));
}

fn brackets(tally: &mut Tally) {
    // Task, fun and 31 times if and then are 64 brackets.
    let in_64 = |inner: &[&str]| task(&[ifs(31, inner)]);
    let brackets = "task, fun, loop, if, then and else count as brackets";
    accepts(tally, brackets, &in_64(&[LEAF]));
    refuses(tally, brackets, &in_64(&["(loop s 1 0 0", ")"]), (7, 65));
    let no_brackets = "leaf and call lines are no brackets";
    accepts(tally, no_brackets, &in_64(&[LEAF, LEAF, LEAF]));
}

fn numbers(tally: &mut Tally) {
    let zeros = "a leading zero is form, also out of range";
    accepts(tally, zeros, &main(&["(leaf s 0 0)"]));
    refuses(tally, zeros, &main(&["(leaf s 00 0)"]), (2, 3));
    refuses(tally, zeros, &main(&["(leaf s 0 01048577)"]), (2, 3));
    refuses(tally, zeros, &main(&["(leaf s 0 1048577)"]), (3, 3));
    let long = main(&[&format!("(leaf s 0 {})", "7".repeat(500))]);
    refuses(tally, "any length is judged by value", &long, (3, 3));
}

fn nesting(tally: &mut Tally) {
    let first = "wrong nesting comes before range";
    let in_if = main(&["(if s 0 0", "(leaf s 0 1048577)"]);
    refuses(tally, first, &in_if, (2, 4));
    refuses(tally, first, "(task 9 0\n(leaf s 0 1048577)\n", (2, 2));
    let empty = "a task without a function";
    refuses(tally, empty, "(task 9 0\n)\n", (2, 2));
    let no_parts = main(&["(if s 0 0", ")"]);
    refuses(tally, "an if without parts", &no_parts, (2, 4));
    let swapped = main(&["(if s 0 0", "(else", ")"]);
    refuses(tally, "parts swapped", &swapped, (2, 4));
    let doubled = main(&["(if s 0 0", "(then", ")", "(then", ")"]);
    refuses(tally, "parts doubled", &doubled, (2, 6));
    let direct = main(&["(if s 0 0", LEAF]);
    refuses(tally, "a form directly in an if", &direct, (2, 4));
}

fn ends(tally: &mut Tally) {
    refuses(tally, "the empty text", "", (2, 1));
    let early = joined(&["(task 9 0", "(fun", LEAF]);
    refuses(tally, "a text that ends early", &early, (2, 4));
    let with = |more: &str| format!("{early}{more}");
    let no_feed = "a last line without a line feed";
    refuses(tally, no_feed, &with(")"), (2, 4));
    refuses(tally, no_feed, &with("(leaf s 1 0)"), (2, 4));
    refuses(tally, no_feed, &with("(leaf s 1 0)\n"), (5, 4));
    let complete = joined(&["(task 9 0", "(fun", ")", ")"]);
    let after = "anything after the task";
    accepts(tally, after, &complete);
    for more in ["\n", " ", ")\n", "\n\n", "(task 9 0\n"] {
        refuses(tally, after, &format!("{complete}{more}"), (2, 5));
    }
    let bytes = |count: usize| format!("{complete}{}", "\n".repeat(count - complete.len()));
    refuses(tally, "65,537 bytes of anything", &bytes(65_537), (1, 0));
    refuses(tally, "65,536 bytes are read", &bytes(65_536), (2, 5));
}

fn order_and_rows(tally: &mut Tally) {
    let order = "2, 3, 4, 5, 19, 6, 7 in that order, whatever the order of the fields";
    let after_512 = |line: &str| task(&[[many(LEAF, 512), words(&[line])].concat()]);
    refuses(tally, order, &after_512("(leaf s 2 1)"), (4, 515));
    refuses(tally, order, &main(&["(call s 0 2 1)"]), (5, 3));
    refuses(tally, order, &main(&["(call s 16 0 0)"]), (3, 3));
    refuses(tally, order, &task(&[loops(32, &[CALL])]), (6, 35));
    refuses(tally, order, &after_512("(leaf p 0 1)"), (4, 515));
    refuses(tally, order, &main(&["(call p 0 0 1)"]), (19, 3));
    let deep = task(&[loops(32, &["(leaf p 0 1)"])]);
    refuses(tally, order, &deep, (19, 35));

    let (one, none) = (main(&[LEAF]), main(&[]));
    reads(tally, "a row of no records", &one, 0, Some((4, 3)));
    reads(tally, "a row of one record", &one, 1, None);
    reads(tally, "no leaf needs no record", &none, 0, None);
    reads(tally, "a longer row", &after_512(LEAF), 600, Some((4, 515)));
}

/// Task lines of edition 2 (02, L7).
fn editions(tally: &mut Tally) {
    let with = |line: &str| joined(&[line, "(fun", ")", ")"]);
    let resume = |line: &str| plan::read(with(line).as_bytes(), 512).map(|plan| plan.resume);
    for (line, wanted) in [
        ("(task 9 0", None),
        ("(task 9 0 0", Some(0)),
        ("(task 9 0 1", Some(1)),
        ("(task 9 0 1048576", Some(1_048_576)),
    ] {
        tally.equal(resume(line), Ok(wanted), || {
            format!("U of {line}, a U of 0 being edition 2")
        });
    }
    let zeros = "a leading zero of U is form";
    refuses(tally, zeros, &with("(task 9 0 00"), (2, 1));
    refuses(tally, zeros, &with("(task 9 0 01048577"), (2, 1));
    refuses(tally, "a U of 2^20 + 1", &with("(task 9 0 1048577"), (3, 1));
    let longer = "a longer task line is form";
    refuses(tally, longer, &with("(task 9 0 1 x"), (2, 1));
    refuses(tally, longer, &with("(task 9 0 1 1"), (2, 1));
    refuses(tally, longer, &with("(task 9 0 1048577 1"), (2, 1));
}

/// Rule 19, of document 02.
fn costless_points(tally: &mut Tally) {
    let parts = "(then\n)\n(else\n)\n)";
    let kinds = [
        ("(leaf # 0 1)", ""),
        ("(call # 0 0 1)", ""),
        ("(loop # 1 0 1", ")"),
        ("(if # 0 1", parts),
    ];
    for (line, rest) in kinds {
        let with = |k: &str| {
            let lines = [line.replace('#', k), rest.to_string()];
            let used = lines.into_iter().filter(|line| !line.is_empty());
            task(&[vec![], [words(&[CALL]), used.collect()].concat()])
        };
        let reading = "a point with C = 0, whatever its kind and its M";
        refuses(tally, reading, &with("p"), (19, 6));
        let reading = "silent leaves that cost nothing are accepted as before";
        accepts(tally, reading, &with("s"));
    }
    let bound = main(&["(loop p 0 0 1"]);
    refuses(tally, "a loop with B = 0 is range", &bound, (3, 3));
}

fn whole_plans(tally: &mut Tally) {
    let in_if = ["(if s 0 0", "(then", "(leaf p 1 1)", ")", "(else", ")", ")"];
    accepts(tally, "a silent if may hold points", &main(&in_if));
    let in_loop = task(&[loops(1, &in_if)]);
    refuses(tally, "but inside a silent loop", &in_loop, (8, 0));
    let most = "(leaf s 1048576 1048576)";
    let square = nest(&["(loop s 1024 0 0"], 2, &[most], &[")"]);
    let total = |more: &str| task(&[[square.clone(), words(&[more])].concat()]);
    accepts(tally, "exactly 2^40 passes", &total(LEAF));
    refuses(tally, "one more does not", &total("(leaf s 0 1)"), (10, 0));
}

pub fn check(tally: &mut Tally) {
    levels(tally);
    brackets(tally);
    numbers(tally);
    nesting(tally);
    ends(tally);
    order_and_rows(tally);
    editions(tally);
    costless_points(tally);
    whole_plans(tally);
}
