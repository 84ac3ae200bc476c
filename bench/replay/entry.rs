//! The lines of a log.

pub enum Entry {
    Release,
    /// Point and reading.
    Report(u64, u64),
    /// The reading.
    End(u64),
}

/// The call that a line says, given with its line feed; None where it is of another form.
pub fn entry(line: &[u8]) -> Option<Entry> {
    let line = line.strip_suffix(b"\n")?;
    if let Some(fields) = line.strip_prefix(b"point ") {
        let space = fields.iter().position(|&byte| byte == b' ')?;
        let (point, reading) = (&fields[..space], &fields[space + 1..]);
        return Some(Entry::Report(number(point)?, number(reading)?));
    }
    if let Some(reading) = line.strip_prefix(b"end ") {
        return number(reading).map(Entry::End);
    }
    (line == b"release").then_some(Entry::Release)
}

/// A number below 2^64 without a leading zero.
fn number(digits: &[u8]) -> Option<u64> {
    if digits.is_empty() || digits[0] == b'0' && digits.len() > 1 {
        return None;
    }
    digits.iter().try_fold(0u64, |value, byte| {
        let digit = byte.wrapping_sub(b'0');
        if digit > 9 {
            return None;
        }
        value.checked_mul(10)?.checked_add(digit.into())
    })
}
