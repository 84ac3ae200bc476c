//! Differences in which texts are accepted, and in number and line of a refusal.

use reference::composed::{function_totals, Cost};
use reference::plan::{self, Kind, Plan, Refusal, MOST_BYTES, MOST_COST, MOST_LEAVES};
use reference::rules;

use super::costless;
use super::planted::planted;

/// Bytes that are read as another: where a class begins or ends one off, or goes by
/// seven bits of the number.
const READ_AS: &[(&str, u8, u8)] = &[
    ("slash-is-digit", b'/', b'1'),
    ("colon-is-digit", b':', b'1'),
    ("zero-is-no-digit", b'0', b'/'),
    ("nine-is-no-digit", b'9', b':'),
    ("byte-177-is-digit", b'1' + 128, b'1'),
    ("tab-is-line-feed", b'\t', b'\n'),
    ("vertical-tab-is-line-feed", 11, b'\n'),
    ("byte-138-is-line-feed", b'\n' + 128, b'\n'),
];

/// What is done to the fields of the first line, so that other task lines pass for right
/// ones, and right ones for others.
type Change = fn(&mut Vec<String>);

const FIRST_LINES: &[(&str, Change)] = &[
    ("resume-unranged", |fields| {
        let number = |field: &String| field.parse::<u64>().ok();
        if fields.get(3).and_then(number) > Some(MOST_COST) {
            fields[3] = MOST_COST.to_string();
        }
    }),
    ("resume-by-one-more", |fields| {
        if fields.get(3).is_some_and(|field| field == "1048577") {
            fields[3] = MOST_COST.to_string();
        }
    }),
    ("resume-0-is-edition-1", |fields| {
        if fields.get(3).is_some_and(|field| field == "0") {
            fields.truncate(3);
        }
    }),
    ("edition-1-as-2", |fields| {
        if fields.len() == 3 {
            fields.push("0".to_string());
        }
    }),
    ("resume-with-leading-zero", |fields| {
        if let Some(rest) = fields.get(3).and_then(|field| field.strip_prefix("0")) {
            fields[3] = if rest.is_empty() { "0" } else { rest }.to_string();
        }
    }),
    ("fourth-number-ignored", |fields| fields.truncate(4)),
    ("edition-2-refused", |fields| {
        if fields.len() == 4 {
            fields.truncate(2);
        }
    }),
];

/// The text with its first line changed so, if it ends in a line feed.
fn first_line_changed(text: &[u8], change: Change) -> Vec<u8> {
    let Some(end) = text.iter().position(|&byte| byte == b'\n') else {
        return text.to_vec();
    };
    let Ok(line) = std::str::from_utf8(&text[..end]) else {
        return text.to_vec();
    };
    let mut fields = line.split(' ').map(str::to_string).collect();
    change(&mut fields);
    [fields.join(" ").as_bytes(), &text[end..]].concat()
}

/// Whether a silent form of the plan that passes the test has a point inside.
fn hides_point(plan: &Plan, test: impl Fn(&Kind) -> bool) -> bool {
    let points = rules::functions_with_points(plan);
    let leaves = plan.leaves();
    let mut silent = leaves.iter().filter(|(_, form)| !form.point);
    silent.any(|(_, form)| test(&form.kind) && rules::point_inside(&points, form))
}

/// Whether main itself calls every other function.
fn main_calls_all(plan: &Plan) -> bool {
    let leaves = plan.leaves();
    let called = |function: usize| {
        let mut calls = leaves.iter().filter(|(of, _)| *of == plan.main());
        calls.any(|(_, form)| form.kind == Kind::Call(function))
    };
    (0..plan.main()).all(called)
}

/// The rules 8 to 10 with what is planted in them.
fn judge(plan: &Plan) -> Result<(), u32> {
    let total = |cost: Cost| function_totals(plan, cost)[plan.main()];
    let (isolated, loaded) = (total(Cost::Isolated), total(Cost::Loaded));
    let limit = rules::MOST_TOTAL;
    let answer = rules::judge(plan);
    let called = rules::uncalled(plan).is_empty();
    let wrong = match answer {
        Err(10) if planted("long-by-isolated-only") => {
            (isolated <= limit && loaded < limit << 20).then_some(Ok(()))
        }
        Err(10) if planted("long-by-one-more") => (loaded <= limit + 1).then_some(Ok(())),
        Err(8) if planted("uncalled-before-unseen") => (!called).then_some(Err(9)),
        Err(8) if planted("unseen-not-through-calls") => {
            let in_loop = hides_point(plan, |kind| matches!(kind, Kind::Loop(..)));
            (!in_loop && called && loaded <= limit).then_some(Ok(()))
        }
        Ok(()) if planted("called-by-main-only") => (!main_calls_all(plan)).then_some(Err(9)),
        Ok(()) if planted("points-in-silent-ifs") => {
            hides_point(plan, |kind| matches!(kind, Kind::If(..))).then_some(Err(8))
        }
        _ => None,
    };
    wrong.unwrap_or(answer)
}

fn without_leading_zeros(text: &[u8]) -> Vec<u8> {
    let mut all: Vec<u8> = Vec::new();
    for (at, &byte) in text.iter().enumerate() {
        let after_space = all.last() == Some(&b' ');
        let before_digit = text.get(at + 1).is_some_and(u8::is_ascii_digit);
        if !(byte == b'0' && after_space && before_digit) {
            all.push(byte);
        }
    }
    all
}

/// The rules 1 to 7 and 19 with what is planted in them, on a text that ends in a line
/// feed or not.
fn read_lines(text: &[u8], row: usize) -> Result<Plan, Refusal> {
    match costless::answer(text, row, plan::read_lines(text, row)) {
        Err((2, line)) if planted("line-after") && line > 1 && !text.ends_with(b"\n") => {
            Err((2, line + 1))
        }
        Err((4, line)) if planted("row-past-512") && row > MOST_LEAVES => Err((4, line + 1)),
        Err((4, line)) if planted("load-before-count") => {
            let again = plan::read_lines(text, MOST_LEAVES).err();
            Err(again
                .filter(|refusal| *refusal == (5, line))
                .unwrap_or((4, line)))
        }
        Ok(_) if planted("longer-rows-refused") && row > MOST_LEAVES => Err((4, 1)),
        other => other,
    }
}

/// A text as the reference reads it, and what is planted there.
pub fn read(text: &[u8], records: usize) -> Result<Plan, Refusal> {
    let row = match records {
        _ if planted("row-ignored") => MOST_LEAVES,
        _ if planted("row-one-longer") => records + 1,
        _ if planted("row-cut-to-32-bits") => records & 0xffff_ffff,
        _ => records,
    };
    let mut text = text.to_vec();
    if planted("leading-zeros") && text.len() <= MOST_BYTES {
        text = without_leading_zeros(&text);
    }
    if planted("goes-on") && text.ends_with(b")\n)\n\n") {
        text.pop();
    }
    for &(_, byte, other) in READ_AS.iter().filter(|(name, ..)| planted(name)) {
        let same = text.iter_mut().filter(|found| **found == byte);
        same.for_each(|found| *found = other);
    }
    for &(_, change) in FIRST_LINES.iter().filter(|(name, _)| planted(name)) {
        text = first_line_changed(&text, change);
    }
    let plan = read_lines(&text, row)?;
    judge(&plan).map_err(|number| (number, 0))?;
    Ok(plan)
}
