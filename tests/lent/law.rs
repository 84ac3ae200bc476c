//! What a call is to give on any table and any state: the answer and every later
//! number of the state. A call that is refused leaves the state as it was.

use reference::calls::{margin, Answer, Word};
use reference::composed::Composed;
use reference::numbers::Numbers;
use reference::plan::Plan;
use reference::table::{self, Finding, Table};

use super::calls::Call;
use super::places;
use super::state::State;

#[derive(Clone, Debug, PartialEq, Eq)]
pub struct Outcome {
    pub answer: Answer,
    pub state: State,
}

fn refused(state: &State, number: u32) -> Outcome {
    Outcome {
        answer: Answer::Refused(number),
        state: state.clone(),
    }
}

/// The state that an accepted release or report leaves at this place.
pub fn moved<N: Numbers>(numbers: &N, before: &State, place: &N::Place) -> State {
    let times = numbers.times(place);
    match numbers.last_point(place) {
        None => State::released(&times, false),
        Some(leaf) => before.reported(leaf, numbers.level_in_run(place), &times),
    }
}

fn decided<N: Numbers>(
    numbers: &N,
    before: &State,
    place: &N::Place,
    reading: u64,
    suspended: bool,
) -> Outcome {
    let plan = numbers.plan();
    let remaining = numbers.remaining(place);
    let needed = numbers.needed(place) + plan.cost_of_return(suspended);
    let margin = margin(plan.deadline, reading, needed);
    let word = Word::of(plan, suspended, margin);
    let late = reading > plan.deadline;
    Outcome {
        answer: Answer::Decision {
            word,
            remaining,
            margin,
            late,
        },
        state: moved(numbers, before, place).decided(reading, !word.others_run()),
    }
}

/// An end with this reading, where a run can end.
pub fn ended(plan: &Plan, state: &State, reading: u64) -> Outcome {
    let word = match state.is_suspended() {
        true => Word::Resume,
        false => Word::Ended,
    };
    let late = reading > plan.deadline;
    Outcome {
        answer: Answer::End { word, late },
        state: State::fresh(),
    }
}

fn on_idle<N: Numbers>(numbers: &N, state: &State, call: Call) -> Outcome {
    let plan = numbers.plan();
    match call {
        Call::Report(..) | Call::End(_) => refused(state, 14),
        Call::Release if numbers.total() + plan.switch > plan.deadline => refused(state, 13),
        Call::Release => decided(numbers, state, &numbers.release(), 0, false),
    }
}

fn on_running<N: Numbers>(numbers: &N, place: &N::Place, state: &State, call: Call) -> Outcome {
    let plan = numbers.plan();
    let point = |number: u64| {
        let leaf = usize::try_from(number).ok()?;
        plan.leaves().get(leaf).filter(|(_, form)| form.point)?;
        Some(leaf)
    };
    match call {
        Call::Release => refused(state, 12),
        Call::Report(number, reading) => match point(number) {
            None => refused(state, 15),
            Some(_) if reading < state.reading() => refused(state, 16),
            Some(leaf) => match numbers.report(place, leaf) {
                None => refused(state, 17),
                Some(next) => decided(numbers, state, &next, reading, state.is_suspended()),
            },
        },
        Call::End(reading) if reading < state.reading() => refused(state, 16),
        Call::End(_) if !numbers.can_end(place) => refused(state, 17),
        Call::End(reading) => ended(plan, state, reading),
    }
}

/// On the table of an accepted plan with these numbers. `place` is where the
/// state's stack stands, None where no run stands there.
pub fn outcome<N: Numbers>(
    numbers: &N,
    place: Option<N::Place>,
    state: &State,
    call: Call,
) -> Outcome {
    if !state.is_running() {
        return on_idle(numbers, state, call);
    }
    match place.filter(|place| numbers.times(place)[..] == *state.times()) {
        None => refused(state, 11),
        Some(place) => on_running(numbers, &place, state, call),
    }
}

/// The same with the place found form by form.
pub fn on_plan(composed: &Composed, state: &State, call: Call) -> Outcome {
    outcome(composed, places::by_forms(composed, state), state, call)
}

/// The accepted plan whose table this is.
pub fn plan_of(table: &Table) -> Option<Plan> {
    match table::finding(table) {
        Finding::Good => table::plan_of(table),
        _ => None,
    }
}

/// On the table of this plan, or on that of no accepted plan.
pub fn on(plan: Option<&Plan>, state: &State, call: Call) -> Outcome {
    match plan {
        None => refused(state, 11),
        Some(plan) => on_plan(&Composed::new(plan), state, call),
    }
}

/// On any table.
pub fn on_table(table: &Table, state: &State, call: Call) -> Outcome {
    on(plan_of(table).as_ref(), state, call)
}
