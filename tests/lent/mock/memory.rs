//! The calls on lent memory, and what is planted in the numbers that they leave
//! there and answer.

use std::slice::{from_raw_parts, from_raw_parts_mut};

use reference::calls::Answer;
use reference::plan::Refusal;
use reference::records::{Record, MAX_LOAD_TURN, RECORD, TURN};
use reference::table::{Head, Table, HEAD};

use super::super::answers::Ruling;
use super::super::calls::{Call, Reply};
use super::super::memory::MOST_THERE;
use super::super::state::{Numbers, State, STATE};
use super::planted::planted;
use super::{numbers, texts};

/// The ruling on a refused text, and what is planted there.
fn refused((number, line): Refusal, row: &mut [Record], heads: &mut [Head]) -> Ruling {
    let differences = [
        ("row-on-refusal", &mut row[0][0]),
        ("head-on-refusal", &mut heads[0][0]),
    ];
    for (name, first) in differences {
        if planted(name) && (7..=10).contains(&number) {
            *first = 1;
        }
    }
    if planted("derived-on-refusal") && (8..=10).contains(&number) {
        row[0][TURN] = 1;
    }
    let line = if planted("line-left-out") { 0 } else { line };
    Ruling {
        number: number.into(),
        line: line as u64,
    }
}

/// Writes a table's records into a row with one record behind it, and what is
/// planted there.
fn write_row(table: &Table, row: &mut [Record]) {
    let records = row.len() - 1;
    let count = table.row.len().min(row.len());
    let left_out = usize::from(planted("record-left-out"));
    let written = count.saturating_sub(left_out);
    let columns = match planted("derived-left-out") {
        true => MAX_LOAD_TURN,
        false => RECORD,
    };
    for (record, own) in row.iter_mut().zip(&table.row[..written]) {
        record[..columns].copy_from_slice(&own[..columns]);
        if planted("derived-turned") {
            record[TURN..].reverse();
        }
    }
    if planted("row-filled") && count < records {
        row[count..records].fill([0; RECORD]);
    }
    for (name, at, column) in [
        ("record-past-last", count, 0),
        ("derived-past-last", count, TURN),
        ("row-behind-last", records.saturating_sub(1), RECORD - 1),
    ] {
        if planted(name) && count < records {
            row[at][column] = 0;
        }
    }
    if planted("behind-the-row-written") {
        row[records][0] = 0;
    }
}

/// # Safety
/// Pointers and lengths must be those of live memory; only so many records need be
/// there, with one behind them, and a head behind the head.
#[no_mangle]
pub unsafe extern "C" fn rolsipay_read(
    text: *const u8,
    bytes: usize,
    row: *mut Record,
    records: usize,
    head: *mut Head,
) -> Ruling {
    let text = from_raw_parts(text, bytes);
    let row = from_raw_parts_mut(row, records.min(MOST_THERE) + 1);
    let heads = from_raw_parts_mut(head, 2);
    if planted("behind-the-head-written") {
        heads[1][0] = 0;
    }
    if planted("empty-text-accepted") && text.is_empty() {
        return Ruling { number: 0, line: 0 };
    }
    let plan = match texts::read(text, records) {
        Ok(plan) => plan,
        Err(refusal) => return refused(refusal, row, heads),
    };
    let table = numbers::table(&plan);
    write_row(&table, row);
    let written = HEAD - usize::from(planted("head-left-out"));
    heads[0][..written].copy_from_slice(&table.head[..written]);
    let line = u64::from(planted("accepted-with-a-line"));
    Ruling { number: 0, line }
}

/// How many numbers of the state are stored after a call.
fn stored(call: Call) -> usize {
    match call {
        _ if planted("state-not-stored") => 0,
        Call::End(_) if planted("end-leaves-state") => 0,
        _ if planted("state-stored-in-part") => STATE - 1,
        _ => STATE,
    }
}

/// The reply to a call, and what is planted there.
fn reply(answer: Answer, call: Call) -> Reply {
    let refused = matches!(answer, Answer::Refused(_));
    let mut reply = Reply::of(answer);
    match call {
        _ if refused && planted("refusal-with-remaining") => reply.remaining = 1,
        _ if !refused && planted("accepted-with-number") => reply.number = 1,
        Call::End(_) if !refused && planted("end-with-remaining") => reply.remaining = 1,
        _ if answer.is_return() && planted("return-without-numbers") => {
            (reply.remaining, reply.margin) = (0, 0);
        }
        _ if planted("late-is-2") => reply.late *= 2,
        _ => {}
    }
    reply
}

/// A call on the lent memory, and what is planted there.
unsafe fn called(
    row: *const Record,
    records: usize,
    head: *const Head,
    state: *mut Numbers,
    call: Call,
) -> Reply {
    let used = match planted("more-than-512-used") {
        true => records,
        false => records.min(512),
    };
    let table = Table {
        row: from_raw_parts(row, used).to_vec(),
        head: *head,
    };
    let outcome = super::outcome(table, &State(*state), call);
    let stored = stored(call);
    (&mut *state)[..stored].copy_from_slice(&outcome.state.0[..stored]);
    if planted("behind-the-state-written") {
        (*state.add(1))[0] = 0;
    }
    if planted("row-changed-by-call") && records > 0 {
        (*row.cast_mut())[0] ^= 1;
    }
    if planted("head-changed-by-call") {
        (*head.cast_mut())[HEAD - 1] ^= 1;
    }
    reply(outcome.answer, call)
}

/// # Safety
/// Pointers and lengths must be those of live memory, with as much behind the state.
#[no_mangle]
pub unsafe extern "C" fn rolsipay_release(
    row: *const Record,
    records: usize,
    head: *const Head,
    state: *mut Numbers,
) -> Reply {
    called(row, records, head, state, Call::Release)
}

/// # Safety
/// As for a release.
#[no_mangle]
pub unsafe extern "C" fn rolsipay_report(
    row: *const Record,
    records: usize,
    head: *const Head,
    state: *mut Numbers,
    point: u64,
    reading: u64,
) -> Reply {
    called(row, records, head, state, Call::Report(point, reading))
}

/// # Safety
/// As for a release.
#[no_mangle]
pub unsafe extern "C" fn rolsipay_end(
    row: *const Record,
    records: usize,
    head: *const Head,
    state: *mut Numbers,
    reading: u64,
) -> Reply {
    called(row, records, head, state, Call::End(reading))
}
