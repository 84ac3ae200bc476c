//! Aimed texts about bytes and single lines: too many bytes or digits, what is
//! no form, what is out of range, and which of two broken rules is named.

use super::aimed::{joined, task, words, Cases, SMALLEST};
use super::plan::{Refusal, MOST_BYTES};

pub fn sizes(cases: &mut Cases) {
    let smallest_line = 6;
    for byte in ["\n", " ", "x", ")", "0", "(", "\u{0}"] {
        let fill = |size: usize| byte.repeat(size - SMALLEST.len());
        let full = format!("{SMALLEST}{}", fill(MOST_BYTES));
        cases.add(
            "smallest, then up to the last byte",
            full,
            1,
            Some((2, smallest_line)),
        );
        let over = format!("{SMALLEST}{}", fill(MOST_BYTES + 1));
        cases.add("smallest, then a byte too many", over, 1, Some((1, 0)));
        cases.add(
            "one byte 65,536 times",
            byte.repeat(MOST_BYTES),
            1,
            Some((2, 1)),
        );
        cases.add(
            "one byte 65,537 times",
            byte.repeat(MOST_BYTES + 1),
            1,
            Some((1, 0)),
        );
    }
    cases.add("a million bytes", " ".repeat(1 << 20), 512, Some((1, 0)));
}

/// Each field of each line with a number of 60,000 digits.
pub fn long_numbers(cases: &mut Cases) {
    for (digit, number) in [("9", 3), ("0", 2), ("1", 3)] {
        let digits = digit.repeat(60_000);
        let with = |line: String| task(&[vec![], vec![line, ")".to_string()]]);
        for (line, text) in [
            (1, format!("(task {digits} 0\n(fun\n)\n)\n")),
            (1, format!("(task 1 {digits}\n(fun\n)\n)\n")),
            (1, format!("(task 1 0 {digits}\n(fun\n)\n)\n")),
            (5, with(format!("(leaf s {digits} 1)"))),
            (5, with(format!("(leaf s 1 {digits})"))),
            (5, with(format!("(call s {digits} 1 1)"))),
            (5, with(format!("(call s 0 {digits} 1)"))),
            (5, with(format!("(call s 0 1 {digits})"))),
            (5, with(format!("(loop s {digits} 1 1"))),
            (5, with(format!("(loop s 1 {digits} 1"))),
            (5, with(format!("(loop s 1 1 {digits}"))),
            (5, with(format!("(if s {digits} 1"))),
            (5, with(format!("(if s 1 {digits}"))),
        ] {
            cases.add("a number of 60,000 digits", text, 512, Some((number, line)));
        }
    }
}

/// Lines that cannot stand where a form of the only function is wanted.
const NO_FORM: &[&str] = &[
    "",
    " ",
    "x",
    "(",
    "))",
    ") ",
    " )",
    "\t)",
    ")\r",
    ")x",
    ");",
    "\u{0}",
    "\u{7f}",
    "\u{e9}",
    "(leaf p 1 2",
    "(leaf p 1 2) ",
    " (leaf p 1 2)",
    "(leaf  p 1 2)",
    "(leaf p 1  2)",
    "(leaf p 1 2))",
    "(leaf p 1 2 )",
    "(leaf p 1 2)\r",
    "(leaf p 1 2)(leaf p 1 2)",
    "(leaf x 1 2)",
    "(leaf P 1 2)",
    "(leaf ps 1 2)",
    "(leaf 1 2)",
    "(leaf p 1)",
    "(leaf p)",
    "(leaf",
    "(leaf)",
    "(leaf p 1 2 3)",
    "(leaf p -1 2)",
    "(leaf p +1 2)",
    "(leaf p 1.0 2)",
    "(leaf p 01 2)",
    "(leaf p 1 02)",
    "(leaf p 00 2)",
    "(leaf p 0 00)",
    "(leaf p 02097152 2)",
    "(leaf\tp 1 2)",
    "(leaf p,1,2)",
    "( leaf p 1 2)",
    "(Leaf p 1 2)",
    "(LEAF p 1 2)",
    "leaf p 1 2)",
    "(leafs p 1 2)",
    "(lea p 1 2)",
    "(leaf p a 2)",
    "(leaf p 1a 2)",
    "(leaf p : 2)",
    "(leaf p / 2)",
    "(leaf p  2)",
    "(call p 0 1)",
    "(call p 0 1 2",
    "(call p 0 1 2 3)",
    "(call p 00 1 2)",
    "(call p f 1 2)",
    "(call 0 1 2)",
    "(loop p 1 1 2)",
    "(loop p 1 1",
    "(loop p 1 1 2 3",
    "(loop p 01 1 2",
    "(loop p 00 1 2",
    "(if p 1 2)",
    "(if p 1",
    "(if p 1 2 3",
    "(if 1 2",
    "(then",
    "(else",
    "(then)",
    "(then ",
    "(fun",
    "(fun)",
    "(fun 1",
    "(task 1 1",
    "(task 1 1)",
    "(task 1 1 1",
    "(for p 1 2",
    "(block p 1 2)",
];

/// Texts that begin, end or nest wrongly, with their refusals.
const WHOLE_TEXTS: &[(&str, Refusal)] = &[
    ("", (2, 1)),
    ("\n", (2, 1)),
    ("(", (2, 1)),
    ("(task 9 0", (2, 1)),
    ("(task 9 0\n", (2, 2)),
    ("(task 9 0\n(fun\n", (2, 3)),
    ("(task 9 0\n(fun\n)\n", (2, 4)),
    ("(task 9 0\n(fun\n)\n)", (2, 4)),
    ("(task 9 0\n(fun\n)\n)\n\n", (2, 5)),
    ("(task 9 0\n(fun\n)\n)\n)\n", (2, 5)),
    ("(task 9 0\n(fun\n)\n)\n)", (2, 5)),
    ("(task 9 0\n(fun\n)\n)\n(task 9 0\n", (2, 5)),
    ("(task 9 0\n)\n", (2, 2)),
    ("\n(task 9 0\n(fun\n)\n)\n", (2, 1)),
    ("(fun\n)\n", (2, 1)),
    (")\n", (2, 1)),
    ("(leaf s 0 0)\n", (2, 1)),
    ("(task 9 0\n(task 9 0\n", (2, 2)),
    ("(task 0 0\n", (3, 1)),
    ("(task 0 0", (2, 1)),
    ("(task 9 0\n(task 0 0\n", (2, 2)),
    ("(task 9 0 \n", (2, 1)),
    ("(task 9\n", (2, 1)),
    ("(task 9 0 0\n", (2, 2)),
    ("(task 9 0 0", (2, 1)),
    ("(task 9 0 0 \n", (2, 1)),
    ("(task 9 0  0\n", (2, 1)),
    ("(task 9 0 0)\n", (2, 1)),
    ("(task 9 0 x\n", (2, 1)),
    ("(task 9 0 -1\n", (2, 1)),
    ("(task 9 0 1 x\n", (2, 1)),
    ("(task 9 0 0 0\n", (2, 1)),
    ("(task 9 0 00\n", (2, 1)),
    ("(task 9 0 01\n", (2, 1)),
    ("(task 9 0 01048577\n", (2, 1)),
    ("(task 0 0 01\n", (2, 1)),
    ("(task 0 0 0\n", (3, 1)),
    ("(task 9 0 0\n)\n", (2, 2)),
    ("(task 9 0 0\n(task 9 0 1048577\n", (2, 2)),
    ("(task 9 0 0\n(fun\n(leaf s 9 8)\n", (5, 3)),
    ("(task 9 0)\n", (2, 1)),
    ("(task 09 0\n", (2, 1)),
    ("(task 9 00\n", (2, 1)),
    ("(task 00 0\n", (2, 1)),
    ("(task 01099511627777 0\n", (2, 1)),
    ("(task 9 0\n(leaf s 0 0)\n", (2, 2)),
    ("(task 9 0\n(leaf s 9999999 0)\n", (2, 2)),
    ("(task 9 0\n(then\n", (2, 2)),
    ("(task 9 0\n(fun\n(fun\n", (2, 3)),
    ("(task 9 0\n(fun\n(leaf s 9 8)", (2, 3)),
    ("(task 9 0\n(fun\n(leaf s 9 8)\n", (5, 3)),
    ("(task 9 0\n(fun\n(leaf s 8 9)\n", (2, 4)),
    ("(task 9 0\n(fun\n(leaf p 0 9)", (2, 3)),
    ("(task 9 0\n(fun\n(leaf p 0 9)\n", (19, 3)),
    ("(task 9 0\n(fun\n(leaf s 0 9)\n", (2, 4)),
    ("(task 9 0\r\n(fun\r\n)\r\n)\r\n", (2, 1)),
    (" (task 9 0\n", (2, 1)),
];

/// Bodies of the only function, each with the line that is refused as form, if one is.
const BODIES: &[(&[&str], Option<usize>)] = &[
    (&["(if s 0 0", "(then", ")", "(else", ")", ")"], None),
    (
        &[
            "(if s 0 0",
            "(then",
            "(leaf s 0 0)",
            ")",
            "(else",
            "(leaf s 0 0)",
            ")",
            ")",
        ],
        None,
    ),
    (&["(if s 0 0", ")"], Some(4)),
    (&["(if s 0 0", "(leaf s 0 0)"], Some(4)),
    (&["(if s 0 0", "(leaf s 1048577 0)"], Some(4)),
    (&["(if s 0 0", "(else", ")", "(then", ")", ")"], Some(4)),
    (&["(if s 0 0", "(then", "(else"], Some(5)),
    (&["(if s 0 0", "(then", "(then"], Some(5)),
    (&["(if s 0 0", "(then", ")", ")"], Some(6)),
    (&["(if s 0 0", "(then", ")", "(then", ")"], Some(6)),
    (&["(if s 0 0", "(then", ")", "(leaf s 0 0)"], Some(6)),
    (
        &["(if s 0 0", "(then", ")", "(else", ")", "(else", ")"],
        Some(8),
    ),
    (
        &["(if s 0 0", "(then", ")", "(else", ")", "(then", ")"],
        Some(8),
    ),
    (
        &["(if s 0 0", "(then", ")", "(else", ")", "(leaf s 0 0)"],
        Some(8),
    ),
    (&["(loop s 1 0 0", "(then", ")", ")"], Some(4)),
    (&["(loop s 1 0 0", "(fun", ")", ")"], Some(4)),
];

pub fn forms(cases: &mut Cases) {
    for line in NO_FORM {
        cases.refuse(&format!("no form: {line:?}"), &[words(&[line])], 2, 3);
    }
    for (text, refusal) in WHOLE_TEXTS {
        cases.add(
            &format!("text: {text:?}"),
            text.to_string(),
            512,
            Some(*refusal),
        );
    }
    for (lines, line) in BODIES {
        let refusal = line.map(|line| (2, line));
        cases.add(&format!("{lines:?}"), task(&[words(lines)]), 512, refusal);
    }
}

/// First lines, each with the number of its refusal, if it has one.
const TASK_LINES: &[(&str, Option<u32>)] = &[
    ("(task 1 0", None),
    ("(task 0 0", Some(3)),
    ("(task 1099511627776 0", None),
    ("(task 1099511627777 0", Some(3)),
    ("(task 18446744073709551617 0", Some(3)),
    ("(task 9 1048576", None),
    ("(task 9 1048577", Some(3)),
    ("(task 9 4294967296", Some(3)),
    ("(task 1 0 0", None),
    ("(task 1099511627776 1048576 1048576", None),
    ("(task 9 0 1048577", Some(3)),
    ("(task 9 0 4294967296", Some(3)),
    ("(task 9 0 18446744073709551616", Some(3)),
    ("(task 9 1048577 1", Some(3)),
    ("(task 1099511627777 0 1", Some(3)),
];

/// What follows the line of an if with empty parts.
const PARTS: &str = "(then\n)\n(else\n)\n)";

/// Forms on line 6, in function 1: each with what follows it and the number of its refusal, if it has one.
const FORM_LINES: &[(&str, &str, Option<u32>)] = &[
    ("(leaf s 1048576 1048576)", "", None),
    ("(leaf s 0 0)", "", None),
    ("(leaf s 1048577 1048577)", "", Some(3)),
    ("(leaf s 0 1048577)", "", Some(3)),
    ("(leaf s 1048577 0)", "", Some(3)),
    ("(leaf s 18446744073709551616 1)", "", Some(3)),
    ("(leaf s 5 5)", "", None),
    ("(leaf s 6 5)", "", Some(5)),
    ("(leaf p 1 0)", "", Some(5)),
    ("(leaf p 1 1)", "", None),
    ("(leaf p 0 0)", "", Some(19)),
    ("(leaf p 0 7)", "", Some(19)),
    ("(leaf s 0 7)", "", None),
    ("(call s 0 0 1048576)", "", None),
    ("(call s 0 0 1048577)", "", Some(3)),
    ("(call s 16 0 0)", "", Some(3)),
    ("(call s 15 0 0)", "", Some(6)),
    ("(call s 16 1 0)", "", Some(3)),
    ("(call s 15 1 0)", "", Some(5)),
    ("(call s 1 0 0)", "", Some(6)),
    ("(call s 2 0 0)", "", Some(6)),
    ("(call s 1 3 2)", "", Some(5)),
    ("(call s 0 3 2)", "", Some(5)),
    ("(call s 4294967296 0 0)", "", Some(3)),
    ("(call s 18446744073709551616 0 0)", "", Some(3)),
    ("(call p 0 1 1)", "", None),
    ("(call p 0 0 0)", "", Some(19)),
    ("(call p 0 0 7)", "", Some(19)),
    ("(call s 0 0 0)", "", None),
    ("(call s 0 0 7)", "", None),
    ("(loop s 1 0 0", ")", None),
    ("(loop s 65535 1 1", ")", None),
    ("(loop s 65536 0 0", ")", Some(3)),
    ("(loop s 0 0 0", ")", Some(3)),
    ("(loop s 0 1 0", ")", Some(3)),
    ("(loop s 1 1 0", ")", Some(5)),
    ("(loop s 1 1048577 1048577", ")", Some(3)),
    ("(loop s 1 0 1048577", ")", Some(3)),
    ("(loop p 1 1 1", ")", None),
    ("(loop p 1 0 0", ")", Some(19)),
    ("(loop p 65535 0 7", ")", Some(19)),
    ("(loop s 65535 0 7", ")", None),
    ("(if s 1048577 1048577", PARTS, Some(3)),
    ("(if s 1048576 1048576", PARTS, None),
    ("(if s 2 1", PARTS, Some(5)),
    ("(if p 1 1", PARTS, None),
    ("(if p 0 0", PARTS, Some(19)),
    ("(if p 0 7", PARTS, Some(19)),
    ("(if s 0 0", PARTS, None),
    ("(if s 0 7", PARTS, None),
];

pub fn ranges(cases: &mut Cases) {
    for (line, number) in TASK_LINES {
        let refusal = number.map(|number| (number, 1));
        cases.add(line, joined(&[line, "(fun", ")", ")"]), 512, refusal);
    }
    for (line, rest, number) in FORM_LINES {
        let mut forms = words(&["(call s 0 0 0)", line]);
        if !rest.is_empty() {
            forms.push(rest.to_string());
        }
        let refusal = number.map(|number| (number, 6));
        cases.add(line, task(&[vec![], forms]), 512, refusal);
    }
}

/// Bodies with more than one wrong line: the first decides, whatever breaks later.
const WRONG_TWICE: &[(&[&str], Refusal)] = &[
    (&["(leaf s 2 1)", "x"], (5, 3)),
    (&["x", "(leaf s 2 1)"], (2, 3)),
    (&["(leaf s 0 1048577)", "(leaf s 2 1)"], (3, 3)),
    (&["(call s 0 0 0)", "("], (6, 3)),
    (&["(leaf s 0 0)", "(leaf s 2 1)", "(call s 16 0 0)"], (5, 4)),
    (&["(leaf p 0 0)", "x"], (19, 3)),
    (&["(leaf p 0 1)", "(leaf s 2 1)"], (19, 3)),
    (&["(leaf s 2 1)", "(leaf p 0 1)"], (5, 3)),
    (&["(leaf s 0 1)", "(loop p 1 0 1", "(loop p 0 1 1"], (19, 4)),
];

pub fn first_refusals(cases: &mut Cases) {
    for (lines, refusal) in WRONG_TWICE {
        cases.refuse(&format!("{lines:?}"), &[words(lines)], refusal.0, refusal.1);
    }
}
