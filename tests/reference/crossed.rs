//! Lines that break several rules at once, in every surrounding that can add
//! one more. The first of the broken rules, in the order of a line, is the one to be
//! named.

use super::aimed::{task, words, Case};
use super::plan::LINE_RULES;

/// A line, what follows it if it opens a bracket, and the rules it breaks by
/// itself in function 1, where only function 0 can be called.
struct Tried {
    line: String,
    rest: &'static str,
    breaks: Vec<u32>,
    calls: bool,
}

/// Field K, fields C and M, and what they break.
const COSTS: &[(&str, &str, &[u32])] = &[
    ("s", "0 0", &[]),
    ("s", "0 1048576", &[]),
    ("s", "1048576 1048576", &[]),
    ("s", "2 1", &[5]),
    ("s", "0 1048577", &[3]),
    ("s", "1048577 1048576", &[3, 5]),
    ("s", "0 00", &[2]),
    ("s", "01048577 0", &[2, 3, 5]),
    ("p", "0 0", &[19]),
    ("p", "0 1048576", &[19]),
    ("p", "0 1048577", &[3, 19]),
    ("p", "0 00", &[2, 19]),
    ("p", "1 0", &[5]),
];

const TARGETS: &[(&str, &[u32])] = &[
    ("0", &[]),
    ("1", &[6]),
    ("15", &[6]),
    ("16", &[3, 6]),
    ("00", &[2]),
    ("016", &[2, 3, 6]),
];

const BOUNDS: &[(&str, &[u32])] = &[
    ("1", &[]),
    ("65535", &[]),
    ("0", &[3]),
    ("65536", &[3]),
    ("01", &[2]),
];

fn tried_lines() -> Vec<Tried> {
    let mut all = Vec::new();
    let mut add = |line: String, rest: &'static str, breaks: [&[u32]; 2], calls: bool| {
        let breaks = breaks.concat();
        all.push(Tried {
            line,
            rest,
            breaks,
            calls,
        });
    };
    for &(k, costs, by_costs) in COSTS {
        add(format!("(leaf {k} {costs})"), "", [by_costs, &[]], false);
        let parts = "(then\n)\n(else\n)\n)";
        add(format!("(if {k} {costs}"), parts, [by_costs, &[]], false);
        for &(target, by_target) in TARGETS {
            let line = format!("(call {k} {target} {costs})");
            add(line, "", [by_costs, by_target], true);
        }
        for &(bound, by_bound) in BOUNDS {
            let line = format!("(loop {k} {bound} {costs}");
            add(line, ")", [by_costs, by_bound], false);
        }
    }
    all
}

/// Each line in function 1 after `before` leaves and inside `loops` loops, or
/// inside as many ifs as leave no bracket free.
fn surrounded(tried: &Tried, before: usize, loops: usize, ifs: usize, row: usize) -> Case {
    let opens_bracket = !tried.rest.is_empty();
    let brackets = 2 + loops + 2 * ifs;
    let mut breaks = tried.breaks.clone();
    if before >= row.min(512) {
        breaks.push(4);
    }
    // Function 0 holds one leaf, so a call of it brings one level more.
    let level = 1 + loops + usize::from(tried.calls);
    if level > 32 || (opens_bracket && brackets >= 64) {
        breaks.push(7);
    }
    let fill = before - 2 - loops - ifs;
    let mut main = words(&["(call s 0 0 0)"]);
    main.extend(vec!["(leaf s 0 0)".to_string(); fill]);
    main.extend(vec!["(loop s 1 0 0".to_string(); loops]);
    main.extend(vec!["(if s 0 0\n(then".to_string(); ifs]);
    let line = 6 + fill + loops + 2 * ifs + 1;
    main.push(tried.line.clone());
    if opens_bracket {
        main.push(tried.rest.to_string());
    }
    main.extend(vec![")\n(else\n)\n)".to_string(); ifs]);
    main.extend(vec![")".to_string(); loops]);
    let refusal = match LINE_RULES.into_iter().find(|rule| breaks.contains(rule)) {
        Some(number) => Some((number, line)),
        // An if that takes the last bracket leaves none for its parts.
        None if brackets == 63 && tried.rest.starts_with("(then") => Some((7, line + 1)),
        None => None,
    };
    Case {
        name: format!("{} after {before}, {loops} loops, {ifs} ifs", tried.line),
        text: task(&[words(&["(leaf s 0 0)"]), main]).into_bytes(),
        row,
        refusal,
    }
}

pub fn cases() -> Vec<Case> {
    let mut all = Vec::new();
    for tried in tried_lines() {
        for (loops, ifs) in [(0, 0), (30, 0), (31, 0), (32, 0), (0, 31), (1, 30)] {
            for (before, row) in [(511, 512), (512, 512), (512, 600), (40, 40), (40, 41)] {
                all.push(surrounded(&tried, before, loops, ifs, row));
            }
        }
    }
    all
}
