//! Release, report and end. Each comes in two forms: one checks the lent table, the other is given what the check found.

use super::check::table;
use super::place::{Ahead, Next, Place};
use super::SECOND;
use crate::memory::{Head, Leaf, Reply, State};

const BROKEN: u64 = 11;
const BUSY: u64 = 12;
const UNFIT: u64 = 13;
const IDLE: u64 = 14;
const STRANGER: u64 = 15;
const BACKWARD: u64 = 16;
const ASTRAY: u64 = 17;

pub const REFUSED: u64 = 0;
const GO: u64 = 1;
const SUSPEND: u64 = 2;
const STAY: u64 = 3;
pub const RESUME: u64 = 4;
const ENDED: u64 = 5;

/// A margin is not given below this.
const LEAST_MARGIN: i128 = -(1 << 62);

fn refused(number: u64) -> Reply {
    Reply {
        word: REFUSED,
        number,
        remaining: 0,
        margin: 0,
        late: 0,
    }
}

fn decide(head: &Head, remaining: u64, ahead: Ahead, reading: u64, suspended: bool) -> Reply {
    let reserve = match ahead.is_final() {
        true => 0,
        false => remaining + head.switching,
    };
    let returns = suspended && head.edition == SECOND;
    let back = if returns { head.resuming } else { 0 };
    let needed = ahead.stretch() + reserve + back;
    let margin = i128::from(head.deadline) - i128::from(reading) - i128::from(needed);
    let word = match (suspended, margin >= 0) {
        (false, true) => GO,
        (false, false) => SUSPEND,
        (true, true) if returns => RESUME,
        (true, _) => STAY,
    };
    Reply {
        word,
        number: 0,
        remaining,
        margin: margin.max(LEAST_MARGIN) as i64,
        late: (reading > head.deadline).into(),
    }
}

pub fn release(row: &[Leaf], head: &Head, state: &mut State) -> Reply {
    release_on(table(row, head), head, state)
}

pub fn release_on(row: Option<&[Leaf]>, head: &Head, state: &mut State) -> Reply {
    let Some(row) = row else {
        return refused(BROKEN);
    };
    if state.running != 0 {
        let holds = Place { row, head, state }.holds();
        return refused(if holds { BUSY } else { BROKEN });
    }
    if head.total + head.switching > head.deadline {
        return refused(UNFIT);
    }
    let ahead = Place { row, head, state }.from_start();
    let reply = decide(head, head.total, ahead, 0, false);
    *state = State::FRESH;
    state.running = 1;
    state.suspended = (reply.word == SUSPEND).into();
    state.times[0] = head.total;
    reply
}

/// The place of the run that the state has on a good table, or the number of the refusal.
fn standing<'a>(
    row: Option<&'a [Leaf]>,
    head: &'a Head,
    state: &'a State,
) -> Result<Place<'a>, u64> {
    let row = row.ok_or(BROKEN)?;
    if state.running == 0 {
        return Err(IDLE);
    }
    let place = Place { row, head, state };
    if place.holds() {
        Ok(place)
    } else {
        Err(BROKEN)
    }
}

pub fn report(row: &[Leaf], head: &Head, state: &mut State, point: u64, reading: u64) -> Reply {
    report_on(table(row, head), head, state, point, reading)
}

pub fn report_on(
    row: Option<&[Leaf]>,
    head: &Head,
    state: &mut State,
    point: u64,
    reading: u64,
) -> Reply {
    let place = match standing(row, head, state) {
        Ok(place) => place,
        Err(number) => return refused(number),
    };
    let row = place.row;
    if point >= row.len() as u64 || row[point as usize].point == 0 {
        return refused(STRANGER);
    }
    if reading < state.reading {
        return refused(BACKWARD);
    }
    let leaf = point as usize;
    let Some(next) = place.next(leaf) else {
        return refused(ASTRAY);
    };
    let remaining = place.time(next.level, leaf, next.earlier);
    let ahead = place.from_visit(leaf, &next);
    let reply = decide(head, remaining, ahead, reading, state.suspended != 0);
    move_on(state, &next, point, remaining);
    state.suspended = matches!(reply.word, SUSPEND | STAY).into();
    state.reading = reading;
    reply
}

/// Puts the state at the point; levels above it hold 0.
fn move_on(state: &mut State, next: &Next, point: u64, remaining: u64) {
    let level = next.level;
    state.running = 1;
    state.level = level as u64;
    for numbers in [&mut state.leaves, &mut state.earlier, &mut state.times] {
        numbers[level + 1..].fill(0);
    }
    state.leaves[level] = point;
    state.earlier[level] = next.earlier;
    state.times[level] = remaining;
}

pub fn end(row: &[Leaf], head: &Head, state: &mut State, reading: u64) -> Reply {
    end_on(table(row, head), head, state, reading)
}

pub fn end_on(row: Option<&[Leaf]>, head: &Head, state: &mut State, reading: u64) -> Reply {
    let place = match standing(row, head, state) {
        Ok(place) => place,
        Err(number) => return refused(number),
    };
    if reading < state.reading {
        return refused(BACKWARD);
    }
    if !place.ahead().can_end() {
        return refused(ASTRAY);
    }
    let word = if state.suspended != 0 { RESUME } else { ENDED };
    *state = State::FRESH;
    Reply {
        word,
        number: 0,
        remaining: 0,
        margin: 0,
        late: (reading > head.deadline).into(),
    }
}
