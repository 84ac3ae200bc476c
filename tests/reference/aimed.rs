//! Texts aimed at each rule's edge, each with the answer worked out by hand.

use super::aimed_lines;
use super::plan::Refusal;
use super::two_faults;

pub struct Case {
    pub name: String,
    pub text: Vec<u8>,
    /// Records lent.
    pub row: usize,
    /// None where the plan is to be accepted.
    pub refusal: Option<Refusal>,
}

pub const LEAF: &str = "(leaf s 0 0)";
const POINT: &str = "(leaf p 1 1)";
const SILENT: &str = "(leaf s 1 1)";
const CALL: &str = "(call s 0 0 0)";
const CALL_POINT: &str = "(call p 0 1 1)";
const COSTLESS: &str = "(leaf p 0 1)";

/// Five leaves, on lines 3, 4, 5, 7 and 10 of a plan of this one function.
const FIVE_LEAVES: [&str; 11] = [
    "(loop s 1 0 0",
    LEAF,
    "(if s 0 0",
    "(then",
    LEAF,
    ")",
    "(else",
    LEAF,
    ")",
    ")",
    ")",
];

pub const SMALLEST: &str = "(task 10 3\n(fun\n(leaf s 7 9)\n)\n)\n";

/// The same of edition 2, where dropping or doubling bytes makes it of edition 1.
pub const SMALLEST_2: &str = "(task 10 3 5\n(fun\n(leaf s 7 9)\n)\n)\n";

/// A number of more digits than any range has, so that a byte can be wrong behind those
/// that tell it: 3, on line 3.
pub const MANY_DIGITS: &str = "(task 10 3\n(fun\n(leaf s 7 99999999999999)\n)\n)\n";

/// One of every form, so that each line's bytes can be changed. One byte makes a point
/// of a silent leaf that costs nothing.
pub const EVERY_FORM: &str =
    "(task 900 5\n(fun\n(leaf s 0 2)\n)\n(fun\n(call s 0 0 3)\n(loop p 7 2 4\n\
    (if p 3 5\n(then\n(leaf p 10 20)\n)\n(else\n(call p 0 1 1)\n)\n)\n)\n(leaf s 6 8)\n)\n)\n";

pub fn joined<S: AsRef<str>>(lines: &[S]) -> String {
    lines
        .iter()
        .map(|line| format!("{}\n", line.as_ref()))
        .collect()
}

/// A plan of these functions; the first form of the first one is on line 3.
pub fn task(functions: &[Vec<String>]) -> String {
    let bodies: String = functions
        .iter()
        .map(|forms| format!("(fun\n{})\n", joined(forms)))
        .collect();
    format!("(task 1099511627776 3\n{bodies})\n")
}

pub fn words(lines: &[&str]) -> Vec<String> {
    lines.iter().map(|line| line.to_string()).collect()
}

pub fn many(line: &str, count: usize) -> Vec<String> {
    vec![line.to_string(); count]
}

/// `count` open brackets of one sort, what they hold, and the closing ones.
pub fn nest(open: &[&str], count: usize, inner: &[&str], close: &[&str]) -> Vec<String> {
    let mut lines: Vec<String> = (0..count).flat_map(|_| words(open)).collect();
    lines.extend(words(inner));
    lines.extend((0..count).flat_map(|_| words(close)));
    lines
}

pub fn loops(count: usize, inner: &[&str]) -> Vec<String> {
    nest(&["(loop s 1 0 0"], count, inner, &[")"])
}

/// Each if is two open brackets.
pub fn ifs(count: usize, inner: &[&str]) -> Vec<String> {
    nest(
        &["(if s 0 0", "(then"],
        count,
        inner,
        &[")", "(else", ")", ")"],
    )
}

pub struct Cases(Vec<Case>);

impl Cases {
    pub fn add(&mut self, name: &str, text: String, row: usize, refusal: Option<Refusal>) {
        self.0.push(Case {
            name: name.to_string(),
            text: text.into_bytes(),
            row,
            refusal,
        });
    }

    fn accept(&mut self, name: &str, functions: &[Vec<String>]) {
        self.add(name, task(functions), 512, None);
    }

    pub fn refuse(&mut self, name: &str, functions: &[Vec<String>], number: u32, line: usize) {
        self.add(name, task(functions), 512, Some((number, line)));
    }
}

/// 64 brackets and 65, the task's and the function's among them.
fn brackets(cases: &mut Cases) {
    cases.accept("64 brackets", &[ifs(31, &[LEAF])]);
    cases.refuse(
        "a loop is the 65th bracket",
        &[ifs(31, &["(loop s 1 0 0", ")"])],
        7,
        65,
    );
    cases.refuse(
        "an if is the 65th bracket",
        &[ifs(31, &["(if s 0 0"])],
        7,
        65,
    );
    let mut odd = words(&["(loop s 1 0 0"]);
    odd.extend(ifs(30, &["(if s 0 0", "(then"]));
    cases.refuse("a then is the 65th bracket", &[odd.clone()], 7, 65);
    odd.truncate(61);
    odd.extend(words(&["(loop s 1 0 0", LEAF, ")"]));
    odd.extend((0..30).flat_map(|_| words(&[")", "(else", ")", ")"])));
    odd.push(")".to_string());
    cases.accept("a loop is the 64th bracket", &[odd]);
}

/// Levels 32 and 33 by loops alone.
fn levels(cases: &mut Cases) {
    cases.accept("empty loop at level 32", &[loops(32, &[])]);
    cases.accept("leaf at level 32", &[loops(31, &[LEAF])]);
    cases.refuse("leaf at level 33", &[loops(32, &[LEAF])], 7, 35);
    cases.refuse("loop at level 33", &[loops(33, &[])], 7, 35);
    cases.refuse("if at level 33", &[loops(32, &["(if s 0 0"])], 7, 35);
}

/// Levels 32 and 33 by a call of function 0, which adds what it calls.
fn called_levels(cases: &mut Cases) {
    let call_at = |level: usize| loops(level - 1, &[CALL]);
    let leaf = || words(&[LEAF]);
    cases.accept("empty function called at level 32", &[vec![], call_at(32)]);
    cases.refuse("leaf called at level 32", &[leaf(), call_at(32)], 7, 37);
    cases.refuse(
        "empty function called at level 33",
        &[vec![], call_at(33)],
        7,
        37,
    );
    cases.accept("leaf called at level 31", &[leaf(), call_at(31)]);
    cases.accept(
        "empty loop at 16 called at 16",
        &[loops(16, &[]), call_at(16)],
    );
    cases.refuse(
        "leaf at 17 called at 16",
        &[loops(16, &[LEAF]), call_at(16)],
        7,
        53,
    );
}

/// Levels of more than one call, and as many functions as may call one another.
fn levels_of_calls(cases: &mut Cases) {
    let call_second = "(call s 1 0 0)";
    let chain = |last: usize| {
        [
            loops(9, &[LEAF]),
            loops(9, &[CALL]),
            loops(last, &[call_second]),
        ]
    };
    cases.accept("levels 10 + 10 + 12 by two calls", &chain(11));
    cases.refuse("levels 10 + 10 + 13 by two calls", &chain(12), 7, 57);
    let low = [
        loops(30, &[LEAF]),
        words(&[LEAF]),
        [loops(20, &[call_second]), words(&[CALL])].concat(),
    ];
    cases.accept("a low function after a tall one", &low);
    let both = words(&[CALL, call_second]);
    cases.accept(
        "the taller of two calls counts",
        &[words(&[LEAF]), loops(30, &[LEAF]), both],
    );
    let steps = |count: usize| -> Vec<Vec<String>> {
        let call = |f: usize| vec![format!("(call s {} 0 0)", f - 1)];
        (0..count)
            .map(|f| if f == 0 { words(&[LEAF]) } else { call(f) })
            .collect()
    };
    cases.accept("16 functions, each calling the one before", &steps(16));
    cases.refuse("a 17th function", &steps(17), 4, 50);
}

/// 512 leaves and 513.
fn counts(cases: &mut Cases) {
    cases.accept("512 leaves", &[many(LEAF, 512)]);
    cases.refuse("513 leaves", &[many(LEAF, 513)], 4, 515);
    let after = |line: &str| [[many(LEAF, 512), words(&[line])].concat()];
    cases.refuse("513th leaf is a loop", &after("(loop s 1 0 0"), 4, 515);
    cases.refuse("513th leaf is an if", &after("(if s 0 0"), 4, 515);
    let full: Vec<Vec<String>> = (0..16)
        .map(|f: usize| match f.checked_sub(1) {
            None => many(LEAF, 32),
            Some(before) => [many(LEAF, 31), vec![format!("(call s {before} 0 0)")]].concat(),
        })
        .collect();
    cases.accept("16 functions of 32 leaves", &full);
}

/// Lent rows of fewer and of more records than there are leaves.
fn lent_rows(cases: &mut Cases) {
    for row in [0, 1, 511, 512, 513, 600, usize::MAX] {
        let refusal = (row < 512).then_some((4, 3 + row));
        let leaves = |count: usize| task(&[many(LEAF, count)]);
        cases.add("512 leaves and other rows", leaves(512), row, refusal);
        let refusal = Some((4, 3 + row.min(512)));
        cases.add("513 leaves and other rows", leaves(513), row, refusal);
        cases.add("no leaf and other rows", leaves(0), row, None);
        let refusal = (row == 0).then_some((4, 3));
        let smallest = SMALLEST.to_string();
        cases.add("smallest and other rows", smallest, row, refusal);
        let refusal = [Some((4, 3)), Some((4, 4))].get(row).copied().flatten();
        let five = task(&[words(&FIVE_LEAVES)]);
        cases.add("five leaves and other rows", five, row, refusal);
    }
}

/// Rule 8: points inside silent forms.
fn points_in_silence(cases: &mut Cases) {
    let (point, silent, call) = (words(&[POINT]), words(&[SILENT]), words(&[CALL]));
    cases.refuse("point in a silent loop", &[loops(1, &[POINT])], 8, 0);
    cases.accept("point in a silent if", &[ifs(1, &[POINT])]);
    let in_if = nest(
        &["(loop s 1 0 0", "(if s 0 0", "(then"],
        1,
        &[POINT],
        &[")", "(else", ")", ")", ")"],
    );
    cases.refuse("point in a silent if in a silent loop", &[in_if], 8, 0);
    cases.refuse(
        "silent call of a point",
        &[point.clone(), call.clone()],
        8,
        0,
    );
    cases.accept("silent call of silence", &[silent, call]);
    cases.accept(
        "call that is a point",
        &[point.clone(), words(&[CALL_POINT])],
    );
    let far = [point, ifs(1, &[CALL_POINT]), words(&["(call s 1 0 0)"])];
    cases.refuse("silent call of a call of a point", &far, 8, 0);
}

/// Rule 19 comes on its line, before the rules of whole plans.
fn costless_points(cases: &mut Cases) {
    let (silent, costless) = (words(&[SILENT]), words(&[COSTLESS]));
    cases.refuse("19 before 8", &[loops(1, &[COSTLESS])], 19, 4);
    cases.refuse("19 before 9", &[silent.clone(), costless.clone()], 19, 6);
    let unnamed = [costless, silent];
    cases.refuse("19 in a function that no call names", &unnamed, 19, 3);
    let most = nest(&["(loop s 65535 0 1048576"], 2, &[COSTLESS], &[")"]);
    cases.refuse("19 before 10", &[most], 19, 5);
    let after_512 = [many(LEAF, 511), words(&[COSTLESS, LEAF])].concat();
    cases.refuse("19 on the 512th leaf", &[after_512], 19, 514);
    for row in [0, 1, 2] {
        let text = task(&[words(&[LEAF, COSTLESS])]);
        let number = if row < 2 { 4 } else { 19 };
        let refusal = Some((number, 3 + row.min(1)));
        cases.add("19 and other rows", text, row, refusal);
    }
}

/// Rule 9, and rule 8 before it.
fn uncalled_functions(cases: &mut Cases) {
    let (silent, call) = (words(&[SILENT]), words(&[CALL]));
    let unused = [silent.clone(), silent.clone()];
    cases.refuse("a function that no call names", &unused, 9, 0);
    let hidden = loops(1, &[POINT]);
    cases.refuse("8 before 9", &[silent.clone(), hidden.clone()], 8, 0);
    let unseen_there = [hidden, silent.clone()];
    cases.refuse("8 in a function that no call names", &unseen_there, 8, 0);
    cases.refuse(
        "called by one that no call names",
        &[silent.clone(), call.clone(), call],
        9,
        0,
    );
    cases.refuse(
        "an empty function that no call names",
        &[vec![], silent],
        9,
        0,
    );
}

/// Rule 10 at its edge, and rule 9 before it.
fn totals(cases: &mut Cases) {
    let most = "(leaf s 1048576 1048576)";
    let square = |inner: &str| nest(&["(loop s 1024 0 0"], 2, &[inner], &[")"]);
    let with = |inner: &str, more: &str| [square(inner), words(&[more])].concat();
    cases.accept("totals of 2^40", &[with(most, LEAF)]);
    cases.refuse("totals of 2^40 + 1", &[with(most, SILENT)], 10, 0);
    cases.refuse(
        "max-load total of 2^40 + 1",
        &[with("(leaf s 0 1048576)", "(leaf s 0 1)")],
        10,
        0,
    );
    let unnamed = [words(&[SILENT]), with(most, SILENT)];
    cases.refuse("9 before 10", &unnamed, 9, 0);
}

/// Sums of 2^64, 2^65 and 2^128, which wrap to 0 in words of those sizes.
fn wrapping_totals(cases: &mut Cases) {
    let powers = |opens: &[&str]| {
        nest(
            opens,
            1,
            &["(leaf s 1048576 1048576)"],
            &vec![")"; opens.len()],
        )
    };
    let (two, eight) = ("(loop s 2 0 0", "(loop s 8 0 0");
    let (low, high) = ("(loop s 16384 0 0", "(loop s 32768 0 0");
    cases.refuse("total of 2^64", &[powers(&[high, high, low])], 10, 0);
    cases.refuse("total of 2^65", &[powers(&[high, high, low, two])], 10, 0);
    cases.refuse(
        "total of 2^128",
        &[powers(&[high, high, high, high, high, high, high, eight])],
        10,
        0,
    );
    let most = nest(&["(loop s 65535 1048576 1048576"], 32, &[], &[")"]);
    cases.refuse("32 loops of most rounds", &[most], 10, 0);
}

pub fn cases() -> Vec<Case> {
    let mut cases = Cases(Vec::new());
    for topic in [
        aimed_lines::sizes,
        aimed_lines::long_numbers,
        aimed_lines::forms,
        aimed_lines::ranges,
        aimed_lines::first_refusals,
        two_faults::lines,
        brackets,
        levels,
        called_levels,
        levels_of_calls,
        counts,
        lent_rows,
        points_in_silence,
        costless_points,
        uncalled_functions,
        totals,
        wrapping_totals,
    ] {
        topic(&mut cases);
    }
    cases.0
}
