//! The review sheet of a plan (02, L5): the numbers of its listing on pages of paper.

use super::numbers::{answer, Figures};

/// A page is so many lines of so many columns.
const LINES: usize = 60;
const COLUMNS: usize = 72;

/// The first lines of every page; each line behind them has room for a point.
const HEADING: usize = 3;
const POINTS: usize = LINES - HEADING;

/// The columns of each field: in the first line of a heading total, max-load total, D,
/// T and, in an edition 2 plan, U (02, L7), in the second the number of the page, in the
/// third none; in the line of a point its number, its level, its tail and its stretch.
const TASK_FIELDS: [usize; 5] = [14, 14, 14, 14, 14];
const PAGE_FIELDS: [usize; 1] = [14];
const POINT_FIELDS: [usize; 4] = [6, 4, 14, 14];

type Line = [u8; COLUMNS];
type Page = [Line; LINES];

const BLANK: Page = [[b' '; COLUMNS]; LINES];

/// Writes each number into its field, the last digit into the field's last column.
fn write(line: &mut Line, fields: &[usize], numbers: &[u64]) {
    let mut end = 0;
    for (&field, number) in fields.iter().zip(numbers) {
        let digits = number.to_string();
        assert!(digits.len() <= field, "{number} has {field} columns");
        end += field;
        line[end - digits.len()..end].copy_from_slice(digits.as_bytes());
    }
}

/// The page of this number, from 1, with its heading and its points.
fn page(figures: &Figures, number: usize) -> Page {
    let mut page = BLANK;
    write(&mut page[0], &TASK_FIELDS, &figures.task);
    write(&mut page[1], &PAGE_FIELDS, &[number as u64]);
    let points = figures.points.iter().skip((number - 1) * POINTS);
    for (line, point) in page[HEADING..].iter_mut().zip(points) {
        write(line, &POINT_FIELDS, point);
    }
    page
}

/// What the sheet program prints for an accepted plan with these: as many pages as its
/// points need, and at least one.
pub fn sheet(figures: &Figures) -> String {
    let pages = figures.points.len().div_ceil(POINTS).max(1);
    let lines = (1..=pages).flat_map(|number| page(figures, number));
    lines
        .map(|line| format!("{}\n", String::from_utf8_lossy(&line)))
        .collect()
}

/// What the sheet program prints for a text.
pub fn printed(text: &[u8]) -> String {
    answer(text, sheet)
}
