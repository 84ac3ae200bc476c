//! Lines as the stand-in reads them: changed by what is planted, so that others
//! pass for right ones, and then read as the reference does.

use super::planted::planted;

/// How a line is changed before it is read.
pub type Change = fn(&[u8]) -> Vec<u8>;

const CHANGES: &[(&str, Change)] = &[
    ("feed-missing-accepted", |line| {
        [line.strip_suffix(b"\n").unwrap_or(line), b"\n"].concat()
    }),
    ("leading-zeros", |line| fields(line, without_zeros)),
    ("wraps-at-64-bits", |line| fields(line, wrapped)),
    ("held-at-64-bits", |line| fields(line, held)),
    ("overflow-by-compare", |line| fields(line, compared)),
    ("63-bits", |line| {
        fields(line, |field| below(field, 1 << 63))
    }),
    ("largest-refused", |line| {
        fields(line, |field| below(field, u64::MAX))
    }),
    ("carriage-returns", |line| replaced(line, "\r\n", "\n")),
    ("trailing-spaces", |line| replaced(line, " \n", "\n")),
    ("leading-spaces", |line| line.trim_ascii_start().to_vec()),
    ("double-spaces", |line| replaced(line, "  ", " ")),
    ("tabs", |line| replaced(line, "\t", " ")),
    ("capitals", <[u8]>::to_ascii_lowercase),
    ("plus-signs", |line| replaced(line, " +", " ")),
    ("minus-signs", |line| replaced(line, " -", " ")),
    ("more-fields", first_fields),
    ("beginnings", |line| match line.starts_with(b"release") {
        true => b"release\n".to_vec(),
        false => line.to_vec(),
    }),
    ("zero-byte-ends-line", |line| {
        let mut parts = line.split(|&byte| byte == 0);
        let (first, more) = (parts.next().unwrap_or(line), parts.next().is_some());
        [first, if more { b"\n" } else { b"" }].concat()
    }),
    ("top-bit-cleared", |line| {
        line.iter().map(|byte| byte & 0x7f).collect()
    }),
    ("colon-is-digit", |line| replaced(line, ":", "0")),
];

/// The change that is planted; the line itself where none is.
pub fn change() -> Change {
    let mut named = CHANGES.iter().filter(|(name, _)| planted(name));
    named.next().map_or(<[u8]>::to_vec, |&(_, change)| change)
}

/// The line with these bytes replaced, where it is text.
fn replaced(line: &[u8], from: &str, to: &str) -> Vec<u8> {
    match std::str::from_utf8(line) {
        Ok(text) => text.replace(from, to).into_bytes(),
        Err(_) => line.to_vec(),
    }
}

/// The line with its numbers changed, where it is text.
fn fields(line: &[u8], by: impl Fn(&str) -> String) -> Vec<u8> {
    let Ok(text) = std::str::from_utf8(line) else {
        return line.to_vec();
    };
    let (text, feed) = match text.strip_suffix('\n') {
        Some(text) => (text, "\n"),
        None => (text, ""),
    };
    let is_number = |field: &str| !field.is_empty() && field.bytes().all(|b| b.is_ascii_digit());
    let changed = |field| match is_number(field) {
        true => by(field),
        false => field.to_string(),
    };
    let fields: Vec<String> = text.split(' ').map(changed).collect();
    (fields.join(" ") + feed).into_bytes()
}

fn without_zeros(field: &str) -> String {
    match field.trim_start_matches('0') {
        "" => "0".to_string(),
        digits => digits.to_string(),
    }
}

/// The value of digits by this step; a leading zero stays one.
fn valued(field: &str, step: impl Fn(Option<u64>, u64) -> Option<u64>) -> String {
    if field.len() > 1 && field.starts_with('0') {
        return field.to_string();
    }
    let digits = field.bytes().map(|byte| u64::from(byte - b'0'));
    let value = digits.fold(Some(0), step);
    value.map_or("x".to_string(), |value| value.to_string())
}

fn wrapped(field: &str) -> String {
    valued(field, |sum, digit| {
        Some(sum?.wrapping_mul(10).wrapping_add(digit))
    })
}

fn held(field: &str) -> String {
    valued(field, |sum, digit| {
        Some(sum?.saturating_mul(10).saturating_add(digit))
    })
}

/// Too large is only what wraps to a smaller number.
fn compared(field: &str) -> String {
    valued(field, |sum, digit| {
        let next = sum?.wrapping_mul(10).wrapping_add(digit);
        (next >= sum?).then_some(next)
    })
}

/// A number that is not below this is none.
fn below(field: &str, limit: u64) -> String {
    match field.parse() {
        Ok(value) if limit <= value => "x".to_string(),
        _ => field.to_string(),
    }
}

/// The line without fields that are too many.
fn first_fields(line: &[u8]) -> Vec<u8> {
    let text = line.strip_suffix(b"\n").unwrap_or(line);
    let count = match text.split(|&byte| byte == b' ').next() {
        Some(b"release") => 1,
        Some(b"end") => 2,
        _ => 3,
    };
    let fields: Vec<&[u8]> = text.split(|&byte| byte == b' ').take(count).collect();
    [&fields.join(&b' '), &line[text.len()..]].concat()
}
