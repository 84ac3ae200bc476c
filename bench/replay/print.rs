//! The lines that are printed.

use crate::entry::Entry;
use crate::memory::Reply;
use crate::reference::calls::REFUSED;

/// The words of replies by their numbers.
const WORDS: [&[u8]; 6] = [b"refused", b"go", b"suspend", b"stay", b"resume", b"ended"];

/// The digits of the greatest number below 2^64.
const DIGITS: usize = 20;

fn put_number(out: &mut Vec<u8>, number: u64) {
    let mut digits = [0; DIGITS];
    let (mut first, mut rest) = (DIGITS, number);
    loop {
        first -= 1;
        digits[first] = b'0' + (rest % 10) as u8;
        rest /= 10;
        if rest == 0 {
            return out.extend_from_slice(&digits[first..]);
        }
    }
}

fn put_field(out: &mut Vec<u8>, number: u64) {
    out.push(b' ');
    put_number(out, number);
}

fn put_signed(out: &mut Vec<u8>, number: i64) {
    out.push(b' ');
    if number < 0 {
        out.push(b'-');
    }
    put_number(out, number.unsigned_abs());
}

/// The reply to the call of a line.
pub fn answer(out: &mut Vec<u8>, entry: &Entry, reply: &Reply) {
    out.extend_from_slice(WORDS[reply.word as usize]);
    match (entry, reply.word) {
        (_, REFUSED) => put_field(out, reply.number),
        (Entry::End(_), _) => put_field(out, reply.late),
        _ => {
            put_field(out, reply.remaining);
            put_signed(out, reply.margin);
            put_field(out, reply.late);
        }
    }
    out.push(b'\n');
}

pub fn refused_line(out: &mut Vec<u8>) {
    out.extend_from_slice(b"refused 18\n");
}

pub fn refused_plan(out: &mut Vec<u8>, number: u64, line: u64) {
    out.extend_from_slice(WORDS[REFUSED as usize]);
    put_field(out, number);
    put_field(out, line);
    out.push(b'\n');
}

/// The ticks of a release: shared, suspended and their sum.
pub fn ticks(out: &mut Vec<u8>, shared: u64, suspended: u64) {
    put_number(out, shared);
    put_field(out, suspended);
    put_field(out, shared + suspended);
    out.push(b'\n');
}
