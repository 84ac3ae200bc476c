//! One line of a plan by its own shape, with no regard to where it stands.

/// A line by its own shape, before it is known whether it may stand here.
pub enum Line {
    /// D and T, and U of an edition 2 plan (02, L7).
    Task(u64, u64, Option<u64>),
    Fun,
    Leaf(bool, u64, u64),
    Call(bool, u64, u64, u64),
    Loop(bool, u64, u64, u64),
    If(bool, u64, u64),
    Then,
    Else,
    Close,
}

impl Line {
    /// Of a line that is a leaf: whether it is a point, C and M.
    pub fn leaf(&self) -> Option<(bool, u64, u64)> {
        match *self {
            Line::Leaf(k, c, m) | Line::If(k, c, m) => Some((k, c, m)),
            Line::Call(k, _, c, m) | Line::Loop(k, _, c, m) => Some((k, c, m)),
            Line::Task(..) | Line::Fun | Line::Then | Line::Else | Line::Close => None,
        }
    }
}

/// A number without a leading zero; one too large for 64 bits stands at the
/// largest, which is outside every range.
fn number(field: &[u8]) -> Option<u64> {
    if field.is_empty() || !field.iter().all(u8::is_ascii_digit) {
        return None;
    }
    if field.len() > 1 && field[0] == b'0' {
        return None;
    }
    Some(field.iter().fold(0u64, |sum, digit| {
        sum.saturating_mul(10)
            .saturating_add(u64::from(digit - b'0'))
    }))
}

fn point(field: &[u8]) -> Option<bool> {
    match field {
        b"p" => Some(true),
        b"s" => Some(false),
        _ => None,
    }
}

/// The shape of one line (its line feed taken off), or None for form.
pub fn shape(line: &[u8]) -> Option<Line> {
    let mut fields: Vec<&[u8]> = line.split(|&byte| byte == b' ').collect();
    let closes_itself = matches!(fields[0], b"(leaf" | b"(call");
    if closes_itself {
        let last = fields.pop()?;
        fields.push(last.strip_suffix(b")")?);
    }
    match fields.as_slice() {
        [b"(task", d, t] => Some(Line::Task(number(d)?, number(t)?, None)),
        [b"(task", d, t, u] => Some(Line::Task(number(d)?, number(t)?, Some(number(u)?))),
        [b"(fun"] => Some(Line::Fun),
        [b"(leaf", k, c, m] => Some(Line::Leaf(point(k)?, number(c)?, number(m)?)),
        [b"(call", k, f, c, m] => Some(Line::Call(point(k)?, number(f)?, number(c)?, number(m)?)),
        [b"(loop", k, b, c, m] => Some(Line::Loop(point(k)?, number(b)?, number(c)?, number(m)?)),
        [b"(if", k, c, m] => Some(Line::If(point(k)?, number(c)?, number(m)?)),
        [b"(then"] => Some(Line::Then),
        [b"(else"] => Some(Line::Else),
        [b")"] => Some(Line::Close),
        _ => None,
    }
}
