//! A stand-in for the delivered calls, made of the reference, with a difference
//! planted on demand. It shows that the tests find them.

mod broken;
mod costless;
mod decisions;
mod faster;
mod finals;
mod memory;
mod numbers;
mod planted;
mod refusals;
mod returns;
mod states;
mod tables;
mod texts;
mod visits;

use std::cell::RefCell;
use std::sync::OnceLock;

use reference::calls::Answer;
use reference::composed::Composed;
use reference::plan::Plan;
use reference::table::{Table, LEAVES};

use super::calls::Call;
use super::law::{self, Outcome};
use super::state::State;

/// A name, and the outcome with the difference of that name.
type Difference = (&'static str, fn(&Asked) -> Outcome);

/// What is planted in the outcomes of calls; the right ones where it is elsewhere.
fn difference() -> fn(&Asked) -> Outcome {
    static FOUND: OnceLock<fn(&Asked) -> Outcome> = OnceLock::new();
    *FOUND.get_or_init(|| {
        let parts = [
            decisions::ALL,
            finals::ALL,
            visits::ALL,
            returns::ALL,
            faster::ALL,
            refusals::ALL,
            states::ALL,
            broken::ALL,
            tables::ALL,
        ];
        let all = parts.concat();
        let mut named = all.iter().filter(|(name, _)| planted::planted(name));
        let found = named.next().map(|(_, outcome)| *outcome);
        found.unwrap_or(|asked| asked.right())
    })
}

/// A call on a table and a state. The plan is that of the table, if it is good.
struct Asked<'a> {
    table: &'a Table,
    plan: Option<&'a Plan>,
    state: &'a State,
    call: Call,
}

impl Asked<'_> {
    fn refused(&self, number: u32) -> Outcome {
        Outcome {
            answer: Answer::Refused(number),
            state: self.state.clone(),
        }
    }

    /// The right outcome of a call on this table and another state; refused, it
    /// leaves the state as it was.
    fn outcome_of(&self, state: &State, call: Call) -> Outcome {
        let Some(plan) = self.plan else {
            return self.refused(11);
        };
        let outcome = law::on_plan(&Composed::new(plan), state, call);
        match outcome.answer {
            Answer::Refused(number) => self.refused(number),
            _ => outcome,
        }
    }

    fn right(&self) -> Outcome {
        self.outcome_of(self.state, self.call)
    }

    /// Whether the row goes on behind the plan's own records.
    fn has_spare_records(&self) -> bool {
        self.table.row.len() as u64 > self.table.head[LEAVES]
    }

    fn reading(&self) -> u64 {
        match self.call {
            Call::Release => 0,
            Call::Report(_, reading) | Call::End(reading) => reading,
        }
    }
}

thread_local! {
    /// The table of the last call and its plan, so that a table is judged once.
    static LAST: RefCell<Option<(Table, Option<Plan>)>> = const { RefCell::new(None) };
}

/// A call as the reference answers it, and what is planted there.
fn outcome(table: Table, state: &State, call: Call) -> Outcome {
    LAST.with_borrow_mut(|last| {
        if last.as_ref().is_none_or(|(known, _)| *known != table) {
            let plan = law::plan_of(&table);
            *last = Some((table, plan));
        }
        let (table, plan) = last.as_ref().expect("a table is known");
        difference()(&Asked {
            table,
            plan: plan.as_ref(),
            state,
            call,
        })
    })
}
