//! The sheet of a plan, laid out anew with what is planted in it.

use reference::numbers::Figures;

use super::planted::{either, planted};

type Point = [u64; 4];

/// The points of each page.
fn parts(points: &[Point]) -> Vec<Vec<Point>> {
    let room = either("58-points-a-page", 58, either("56-points-a-page", 56, 57));
    let later = either("heading-left-out-later", 60, room);
    let (first, rest) = points.split_at(points.len().min(room));
    let mut parts = vec![first.to_vec()];
    parts.extend(rest.chunks(later).map(<[Point]>::to_vec));
    for part in parts.iter_mut().skip(1) {
        match () {
            _ if planted("points-repeated") => *part = first.to_vec(),
            _ if planted("first-point-of-page-lost") => drop(part.remove(0)),
            _ if planted("last-point-of-page-twice") => part.insert(0, first[room - 1]),
            _ => {}
        }
    }
    if planted("page-behind-full-one") && parts.iter().all(|part| part.len() == room) {
        parts.push(Vec::new());
    }
    if planted("no-page-without-points") && points.is_empty() {
        parts.clear();
    }
    parts
}

/// A field of a line: its name, its columns, and the most digits of its numbers.
type Field = (&'static str, usize, u32);

const TASK: [Field; 5] = [
    ("total", 14, 13),
    ("max-load", 14, 13),
    ("deadline", 14, 13),
    ("switch", 14, 7),
    ("resume", 14, 7),
];
const PAGE: [Field; 1] = [("page", 14, 1)];
const POINT: [Field; 4] = [
    ("point", 6, 3),
    ("level", 4, 2),
    ("tail", 14, 13),
    ("stretch", 14, 13),
];

/// A number in its field, which may be a column narrower, or the number cut to a digit
/// less.
fn field(mut number: u64, (name, mut columns, digits): Field) -> String {
    if planted(&format!("{name}-narrower")) {
        columns -= 1;
    }
    if digits > 1 && planted(&format!("{name}-cut")) {
        number %= 10u64.pow(digits - 1);
    }
    match () {
        _ if planted("left-aligned") => format!("{number:<columns$}"),
        _ if planted("leading-zeros") => format!("{number:0>columns$}"),
        _ => format!("{number:>columns$}"),
    }
}

fn fields(numbers: &[u64], fields: &[Field]) -> String {
    let all = numbers.iter().zip(fields);
    all.map(|(&number, &of)| field(number, of)).collect()
}

/// The heading of a page.
fn heading(task: &[u64], at: usize) -> Vec<String> {
    let mut task = fields(task, &TASK);
    let number = at as u64 + either("pages-from-0", 0, 1);
    let mut page = fields(&[number], &PAGE);
    match () {
        _ if at > 0 && planted("heading-left-out-later") => return Vec::new(),
        _ if at > 0 && planted("heading-once") => return vec![String::new(); 3],
        _ if at > 0 && planted("page-number-once") => page.clear(),
        _ if planted("page-number-at-edge") => page = format!("{page:>72}"),
        _ if planted("page-number-behind-task") => task.push_str(&std::mem::take(&mut page)),
        _ => {}
    }
    let mut lines = vec![task, page, String::new()];
    lines.truncate(either("heading-of-two-lines", 2, 3));
    lines
}

/// A line with blanks to its end.
fn filled(line: String) -> String {
    let columns = either("71-columns", 71, either("73-columns", 73, 72));
    let mut line = format!("{line:columns$}");
    if planted("blanks-cut") {
        line.truncate(line.trim_end().len());
    }
    if planted("blank-lines-empty") && line.trim_end().is_empty() {
        line.clear();
    }
    if planted("tabs") {
        line = line.replace("        ", "\t");
    }
    line + either("carriage-returns", "\r\n", "\n")
}

/// A page of the sheet; `last` where no other follows.
fn page(task: &[u64], at: usize, points: &[Point], last: bool) -> String {
    let mut lines = heading(task, at);
    lines.extend(points.iter().map(|point| fields(point, &POINT)));
    let feed = last && planted("form-feed-for-blank-lines");
    if !feed && !(last && planted("last-page-not-filled")) {
        let count = either("page-of-61-lines", 61, 60).max(lines.len());
        lines.resize(count, String::new());
    }
    let page: String = lines.into_iter().map(filled).collect();
    match feed || planted("form-feed-behind-page") {
        true => page + "\x0c",
        false => page,
    }
}

pub fn printed(answer: Result<Figures, String>) -> String {
    match answer {
        Ok(figures) => {
            let parts = parts(&figures.points);
            let last = |at: usize| at + 1 == parts.len();
            let pages = parts.iter().enumerate();
            pages
                .map(|(at, points)| page(&figures.task, at, points, last(at)))
                .collect()
        }
        Err(refusal) if planted("refusal-padded") => filled(refusal.trim_end().to_string()),
        Err(refusal) if planted("refusal-on-page") => refusal + &filled(String::new()).repeat(59),
        Err(refusal) => refusal,
    }
}
