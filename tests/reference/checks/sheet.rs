//! Sheets worked out by hand, column by column: plan A's, that of no points, the widest
//! numbers, points that fill a page and one more, as many as a plan may have, and the
//! answers to refused texts.

use reference::aimed::{many, nest, task, words};
use reference::composed::Composed;
use reference::listed::Listed;
use reference::numbers::figures;
use reference::sheet::{printed, sheet};
use reference::worked::{EMPTY, PLAN_A};
use reference::worked_returns::PLAN_A_2;

use super::tally::{accepted, Tally};

/// The fields of a heading end in columns 14, 28, 42, 56 and, in edition 2, 70, those of a
/// point in columns 6, 10, 24 and 38.
const BLANK: &str = "                                                                        ";
const PAGE_1: &str = "             1                                                          ";

/// Total 49, max-load total 93, D 100 and T 4; points 0 and 1.
const ON_PLAN_A: [&str; 5] = [
    "            49            93           100             4                ",
    PAGE_1,
    BLANK,
    "     0   1            49             9                                  ",
    "     1   1            44            24                                  ",
];

/// The same with a U of 3.
const ON_PLAN_A_2: [&str; 5] = [
    "            49            93           100             4             3  ",
    PAGE_1,
    BLANK,
    ON_PLAN_A[3],
    ON_PLAN_A[4],
];

/// D is 1, all else 0.
const ON_EMPTY: [&str; 2] = [
    "             0             0             1             0                ",
    PAGE_1,
];

/// A point of 2^20, then 1023 * 1025 = 2^20 - 1 times the same: 2^40 in all.
const ON_WIDEST: [&str; 4] = [
    " 1099511627776 1099511627776 1099511627776             3                ",
    PAGE_1,
    BLANK,
    "     0   1 1099511627776 1099511627776                                  ",
];

/// Lines 60 to 65 for 58 points that take a tick each: the last of the first page, and
/// the first of the second.
const BEHIND_57: [&str; 6] = [
    "    56   1             2             1                                  ",
    "            58            58 1099511627776             3                ",
    "             2                                                          ",
    BLANK,
    "    57   1             1             1                                  ",
    BLANK,
];

/// The last lines for 512 such points: 8 * 57 are 456, so that page 9 has 56 and a
/// blank line.
const BEHIND_511: [&str; 3] = [
    "   510   1             2             1                                  ",
    "   511   1             1             1                                  ",
    BLANK,
];

/// The same with a U of 2^20.
const WIDEST_2: &str = " 1099511627776 1099511627776 1099511627776             3       1048576  ";

/// These lines, and blank ones up to the end of the page.
fn one_page(lines: &[&str]) -> String {
    let blank = std::iter::repeat(&BLANK);
    let all = lines.iter().chain(blank).take(60);
    all.map(|line| format!("{line}\n")).collect()
}

fn of_one_page(tally: &mut Tally) {
    let plan = accepted(PLAN_A);
    let listed = Listed::new(&plan, 10_000).expect("a plan of few runs");
    let (by_runs, by_forms) = (figures(&listed), figures(&Composed::new(&plan)));
    let square = nest(
        &["(loop s 1023 0 0", "(loop s 1025 0 0"],
        1,
        &["(leaf s 1048576 1048576)"],
        &[")", ")"],
    );
    let widest = task(&[[words(&["(leaf p 1048576 1048576)"]), square].concat()]);
    let widest_2 = widest.replacen(" 3\n", " 3 1048576\n", 1);
    let on_widest_2 = [&[WIDEST_2], &ON_WIDEST[1..]].concat();
    let sheets = [
        ("plan A, by runs", sheet(&by_runs), &ON_PLAN_A[..]),
        ("plan A, by forms", sheet(&by_forms), &ON_PLAN_A),
        ("edition 2", printed(PLAN_A_2.as_bytes()), &ON_PLAN_A_2),
        ("no points", printed(EMPTY.as_bytes()), &ON_EMPTY),
        ("the widest", printed(widest.as_bytes()), &ON_WIDEST),
        ("the widest U", printed(widest_2.as_bytes()), &on_widest_2),
    ];
    for (name, found, wanted) in sheets {
        tally.equal(found, one_page(wanted), || format!("sheet, {name}"));
    }
}

/// Points that take a tick each, and nothing else.
fn of_points(count: usize) -> Vec<String> {
    let text = task(&[many("(leaf p 1 1)", count)]);
    let sheet = printed(text.as_bytes());
    sheet.lines().map(str::to_string).collect()
}

fn of_more_pages(tally: &mut Tally) {
    let one = of_points(57);
    let last = "    56   1             1             1                                  ";
    tally.equal((one.len(), one[59].as_str()), (60, last), || {
        "the sheet of 57 points".to_string()
    });
    let two = of_points(58);
    tally.equal(
        (two.len(), &two[59..65]),
        (120, &words(&BEHIND_57)[..]),
        || "the sheet of 58 points".to_string(),
    );
    let blank = two[65..].iter().all(|line| line == BLANK);
    tally.holds(blank, || "the rest of the second page".to_string());
    let nine = of_points(512);
    tally.equal(
        (nine.len(), &nine[537..]),
        (540, &words(&BEHIND_511)[..]),
        || "the sheet of 512 points".to_string(),
    );
}

fn of_refused(tally: &mut Tally) {
    let texts: [(&[u8], &str); 3] = [
        (b"", "refused 2 1\n"),
        (&[b' '; 65_537], "refused 1 0\n"),
        (
            b"(task 9 0\n(fun\n(loop s 0 1 1\n)\n)\n)\n",
            "refused 3 3\n",
        ),
    ];
    for (text, wanted) in texts {
        tally.equal(printed(text).as_str(), wanted, || {
            format!("sheet, {wanted}")
        });
    }
}

pub fn check(tally: &mut Tally) {
    let lines = [
        &ON_PLAN_A[..],
        &ON_PLAN_A_2,
        &ON_EMPTY,
        &ON_WIDEST,
        &BEHIND_57,
        &BEHIND_511,
        &[WIDEST_2],
    ];
    for line in lines.concat() {
        tally.equal(line.len(), 72, || format!("columns of {line:?}"));
    }
    of_one_page(tally);
    of_more_pages(tally);
    of_refused(tally);
}
