//! A plan's listing, read off the columns of its sheet. What is wrong with a sheet is
//! told from its bytes alone.

/// The columns of the fields: of the first and of the second line of a heading, and of
/// a point's line. The last one of the first line is that of U, and blank in edition 1.
const TASK: &[usize] = &[14, 14, 14, 14, 14];
const PAGE: &[usize] = &[14];
const POINT: &[usize] = &[6, 4, 14, 14];

/// The lines of a sheet in pages: each has 60 lines, and each line 72 bytes.
fn pages(sheet: &str) -> Result<Vec<Vec<&str>>, String> {
    let whole = sheet.strip_suffix('\n');
    let lines: Vec<&str> = whole
        .ok_or("no line feed at the end")?
        .split('\n')
        .collect();
    let wrong = lines.iter().position(|line| line.len() != 72);
    match (wrong, lines.len() % 60) {
        (Some(at), _) => Err(format!("line {} has {} bytes", at + 1, lines[at].len())),
        (None, 0) => Ok(lines.chunks(60).map(<[&str]>::to_vec).collect()),
        (None, _) => Err(format!("{} lines", lines.len())),
    }
}

fn blank(part: &str) -> bool {
    part.bytes().all(|byte| byte == b' ')
}

/// The number at the end of a field, behind blanks.
fn number(field: &str) -> Option<&str> {
    let number = field.trim_start_matches(' ');
    let digits = number.bytes().all(|byte| byte.is_ascii_digit());
    (digits && !number.is_empty()).then_some(number)
}

/// The numbers of a line in fields of so many columns, with blanks behind them.
fn numbers(line: &str, fields: &[usize]) -> Result<String, String> {
    let mut rest = line;
    let mut numbers = Vec::new();
    for &columns in fields {
        let (field, behind) = rest.split_at(columns);
        numbers.push(number(field).ok_or_else(|| format!("{line:?}: no number in {field:?}"))?);
        rest = behind;
    }
    match blank(rest) {
        true => Ok(numbers.join(" ")),
        false => Err(format!("{line:?}: something behind the fields")),
    }
}

/// The heading of a page: the numbers of its first line, where the other two are as
/// they should be.
fn heading(page: &[&str], number: usize) -> Result<String, String> {
    if numbers(page[1], PAGE)? != number.to_string() || !blank(page[2]) {
        return Err(format!("page {number} has {:?} and {:?}", page[1], page[2]));
    }
    let edition_1 = &TASK[..TASK.len() - 1];
    let fields = match blank(&page[0][edition_1.iter().sum()..]) {
        true => edition_1,
        false => TASK,
    };
    numbers(page[0], fields)
}

/// The listing that stands on a sheet. Behind the last point of it there are blank
/// lines only, and no page but the first is without a point.
fn on_pages(pages: &[Vec<&str>]) -> Result<String, String> {
    let task = heading(&pages[0], 1)?;
    for (at, page) in pages.iter().enumerate() {
        if heading(page, at + 1)? != task || at > 0 && blank(page[3]) {
            return Err(format!("page {} has {:?}, {:?}", at + 1, page[0], page[3]));
        }
    }
    let lines: Vec<&str> = pages.iter().flat_map(|page| &page[3..]).copied().collect();
    let count = lines.iter().take_while(|line| !blank(line)).count();
    let (points, behind) = lines.split_at(count);
    if !behind.iter().all(|line| blank(line)) {
        return Err("a blank line between points".to_string());
    }
    let mut listing = format!("task {task}\n");
    for line in points {
        listing.push_str(&format!("point {}\n", numbers(line, POINT)?));
    }
    Ok(listing)
}

/// The listing that stands in an output of the sheet program; the answer to a refused
/// plan is one already.
pub fn listing(output: &[u8]) -> Result<Vec<u8>, String> {
    if output.starts_with(b"refused") {
        return Ok(output.to_vec());
    }
    match std::str::from_utf8(output) {
        Ok(sheet) if sheet.is_ascii() => on_pages(&pages(sheet)?).map(String::into_bytes),
        _ => Err("bytes that are not ASCII".to_string()),
    }
}
