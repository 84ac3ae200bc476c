//! Differences in refusal 11 of tables: numbers and rules that are not looked at,
//! or are looked at where they should not be.

use std::ops::Range;

use reference::composed::{function_totals, Composed, Cost};
use reference::plan::{self, Form, Kind, Plan, MOST_FUNCTIONS, MOST_LEAVES};
use reference::records::{ISOLATED, KIND, LEVEL, MAX_LOAD_TURN, OTHER, POINT, TAIL, TURN};
use reference::table::{self, Finding, Table, FUNCTIONS};
use reference::table::{
    BOUNDS, DEADLINE, EDITION, HEAD, LEAVES, MAX_LOAD_TOTAL, MAX_LOAD_TOTALS, RESUMING, SWITCH,
    TOTAL, TOTALS,
};

use super::super::calls::Call;
use super::super::law::{self, Outcome};
use super::{Asked, Difference};

/// The right outcome on another table.
fn on_table(asked: &Asked, table: &Table) -> Outcome {
    let plan = law::plan_of(table);
    let again = Asked {
        table,
        plan: plan.as_ref(),
        ..*asked
    };
    again.right()
}

/// The outcome on the table with numbers set right that are not looked at.
fn set_right(asked: &Asked, right: impl Fn(&mut Table, &Table)) -> Outcome {
    let plan = table::plan_of(asked.table);
    let plan = plan.and_then(|plan| plan::read(&plan::text(&plan), MOST_LEAVES).ok());
    let Some(plan) = plan else {
        return asked.right();
    };
    let mut table = asked.table.clone();
    right(&mut table, &table::table(&Composed::new(&plan)));
    on_table(asked, &table)
}

/// The same where only this number of each record is not looked at.
fn set_column(asked: &Asked, column: usize) -> Outcome {
    set_right(asked, |table, own| {
        let records = table.row.iter_mut().zip(&own.row);
        records.for_each(|(lent, own)| lent[column] = own[column]);
    })
}

/// The kind of a loop in a record.
const LOOP: u64 = 2;

/// The same where only the max-load turns of some kinds are not looked at.
fn set_max_load_turns(asked: &Asked, kinds: fn(u64) -> bool) -> Outcome {
    set_right(asked, |table, own| {
        let records = table.row.iter_mut().zip(&own.row);
        let unseen = records.filter(|(lent, _)| kinds(lent[KIND]));
        unseen.for_each(|(lent, own)| lent[MAX_LOAD_TURN] = own[MAX_LOAD_TURN]);
    })
}

/// The same where only these numbers of the head are not looked at.
fn set_head(asked: &Asked, numbers: Range<usize>) -> Outcome {
    set_right(asked, |table, own| {
        let numbers = numbers.clone();
        table.head[numbers.clone()].copy_from_slice(&own.head[numbers]);
    })
}

/// The same where D, T, the edition or U is not looked at: this one is there instead.
fn set_task(asked: &Asked, at: usize, number: u64) -> Outcome {
    let mut table = asked.table.clone();
    if asked.plan.is_none() {
        table.head[at] = number;
    }
    on_table(asked, &table)
}

/// The table of a plan that is refused by a rule, as if the rule were not there;
/// None where its numbers cannot be worked out.
fn as_if(plan: &Plan) -> Option<Table> {
    let leaves = plan.leaves();
    let is_free = |(_, form): &(usize, &Form)| (form.isolated, form.loaded) == (0, 0);
    if leaves.iter().all(is_free) {
        return Some(table::free(plan));
    }
    let sound = |(function, form): &(usize, &Form)| match form.kind {
        Kind::Call(target) => target < *function,
        Kind::Loop(bound, _) => bound > 0,
        Kind::Leaf | Kind::If(..) => form.isolated.max(form.loaded) < 1 << 32,
    };
    let short = || {
        let totals = [Cost::Isolated, Cost::Loaded].map(|cost| function_totals(plan, cost));
        totals.iter().flatten().all(|&total| total < 1 << 60)
    };
    let known = leaves.iter().all(sound) && short();
    known.then(|| table::table(&Composed::new(plan)))
}

/// Whether a table is bad for this rule alone.
fn only_breaks(lent: &Table, rule: u32) -> bool {
    let Some(mut plan) = table::plan_of(lent) else {
        return false;
    };
    plan.renumber();
    let own = match table::finding(lent) {
        Finding::Refused(number) if number == rule => as_if(&plan),
        _ => None,
    };
    own.is_some_and(|own| lent.head == own.head && lent.row.starts_with(&own.row))
}

/// A refusal by this number in place of one for a broken table, where the test
/// says so.
fn unbroken(asked: &Asked, number: u32, test: impl FnOnce() -> bool) -> Outcome {
    match asked.plan.is_none() && test() {
        true => asked.refused(number),
        false => asked.right(),
    }
}

/// A table that is not judged by this rule.
fn without_rule(asked: &Asked, rule: u32) -> Outcome {
    unbroken(asked, 13, || only_breaks(asked.table, rule))
}

/// A table that is not judged by rule 19, where all its points that cost nothing pass
/// the test.
fn without_costless(asked: &Asked, test: fn(&Form) -> bool) -> Outcome {
    unbroken(asked, 13, || {
        let plan = table::plan_of(asked.table);
        let leaves = plan.iter().flat_map(|plan| plan.leaves());
        let mut costless = leaves.filter(|(_, form)| form.point && form.isolated == 0);
        costless.all(|(_, form)| test(form)) && only_breaks(asked.table, 19)
    })
}

/// Whether a silent leaf of the table costs nothing.
fn has_free_silence(table: &Table) -> bool {
    let leaves = usize::try_from(table.head[LEAVES]).unwrap_or(usize::MAX);
    let mut records = table.row.iter().take(leaves);
    records.any(|record| (record[POINT], record[ISOLATED]) == (0, 0))
}

/// A table refused by 11 where the test says so.
fn broken(asked: &Asked, test: bool) -> Outcome {
    match test {
        true => asked.refused(11),
        false => asked.right(),
    }
}

fn records(asked: &Asked) -> u64 {
    asked.table.row.len() as u64
}

pub const ALL: &[Difference] = &[
    ("row-unjudged", |asked| {
        set_right(asked, |table, own| table.row.clone_from(&own.row))
    }),
    ("levels-unjudged", |asked| set_column(asked, LEVEL)),
    ("unused-unjudged", |asked| set_column(asked, OTHER)),
    ("turns-unjudged", |asked| set_column(asked, TURN)),
    ("tails-unjudged", |asked| set_column(asked, TAIL)),
    ("max-load-turns-unjudged", |asked| {
        set_column(asked, MAX_LOAD_TURN)
    }),
    ("max-load-turns-of-loops-unjudged", |asked| {
        set_max_load_turns(asked, |kind| kind == LOOP)
    }),
    ("max-load-turns-of-others-unjudged", |asked| {
        set_max_load_turns(asked, |kind| kind != LOOP)
    }),
    ("max-load-turns-at-least", |asked| {
        set_right(asked, |table, own| {
            let records = table.row.iter_mut().zip(&own.row);
            records.for_each(|(lent, own)| {
                if lent[MAX_LOAD_TURN] >= own[MAX_LOAD_TURN] {
                    lent[MAX_LOAD_TURN] = own[MAX_LOAD_TURN];
                }
            });
        })
    }),
    ("total-unjudged", |asked| set_head(asked, TOTAL..TOTAL + 1)),
    ("max-load-total-unjudged", |asked| {
        set_head(asked, MAX_LOAD_TOTAL..MAX_LOAD_TOTAL + 1)
    }),
    ("leaves-unjudged", |asked| {
        set_head(asked, LEAVES..LEAVES + 1)
    }),
    ("bounds-unjudged", |asked| set_head(asked, BOUNDS..TOTALS)),
    ("bounds-behind-unjudged", |asked| {
        set_head(asked, TOTALS - 1..TOTALS)
    }),
    ("totals-unjudged", |asked| {
        set_head(asked, TOTALS..MAX_LOAD_TOTALS)
    }),
    ("max-load-totals-unjudged", |asked| {
        set_head(asked, MAX_LOAD_TOTALS..HEAD)
    }),
    ("max-load-totals-behind-unjudged", |asked| {
        let functions = asked.table.head[FUNCTIONS].min(MOST_FUNCTIONS as u64);
        set_head(asked, MAX_LOAD_TOTALS + functions as usize..HEAD)
    }),
    ("max-load-total-of-main-alone", |asked| {
        let functions = asked.table.head[FUNCTIONS].clamp(1, MOST_FUNCTIONS as u64);
        set_head(
            asked,
            MAX_LOAD_TOTALS..MAX_LOAD_TOTALS + functions as usize - 1,
        )
    }),
    ("deadline-unjudged", |asked| set_task(asked, DEADLINE, 1)),
    ("switch-unjudged", |asked| set_task(asked, SWITCH, 1)),
    ("edition-unjudged", |asked| set_task(asked, EDITION, 2)),
    ("resume-unjudged", |asked| set_task(asked, RESUMING, 0)),
    ("resume-of-edition-1-unjudged", |asked| {
        match asked.table.head[EDITION] {
            1 => set_task(asked, RESUMING, 0),
            _ => asked.right(),
        }
    }),
    ("edition-2-broken", |asked| {
        broken(asked, asked.table.head[EDITION] == 2)
    }),
    ("free-return-broken", |asked| {
        let head = &asked.table.head;
        broken(asked, (head[EDITION], head[RESUMING]) == (2, 0))
    }),
    ("range-unjudged", |asked| without_rule(asked, 3)),
    ("load-unjudged", |asked| without_rule(asked, 5)),
    ("costless-unjudged", |asked| without_rule(asked, 19)),
    ("costless-leaves-unjudged", |asked| {
        without_costless(asked, |form| matches!(form.kind, Kind::Leaf))
    }),
    ("costless-calls-unjudged", |asked| {
        without_costless(asked, |form| matches!(form.kind, Kind::Call(_)))
    }),
    ("costless-loops-unjudged", |asked| {
        without_costless(asked, |form| matches!(form.kind, Kind::Loop(..)))
    }),
    ("costless-ifs-unjudged", |asked| {
        without_costless(asked, |form| matches!(form.kind, Kind::If(..)))
    }),
    ("costless-by-max-load", |asked| {
        without_costless(asked, |form| form.loaded > 0)
    }),
    ("costless-silent-broken", |asked| {
        broken(asked, has_free_silence(asked.table))
    }),
    ("target-unjudged", |asked| without_rule(asked, 6)),
    ("depth-unjudged", |asked| without_rule(asked, 7)),
    ("unseen-unjudged", |asked| without_rule(asked, 8)),
    ("uncalled-unjudged", |asked| without_rule(asked, 9)),
    ("long-unjudged", |asked| without_rule(asked, 10)),
    ("odd-deadlines-refused", |asked| {
        broken(asked, asked.table.head[DEADLINE] % 2 == 1)
    }),
    ("longer-rows-broken", |asked| {
        broken(asked, asked.has_spare_records())
    }),
    ("short-rows-unjudged", |asked| {
        unbroken(asked, 13, || records(asked) < asked.table.head[LEAVES])
    }),
    ("empty-rows-unjudged", |asked| {
        unbroken(asked, 13, || records(asked) == 0)
    }),
    ("more-than-512-used", |asked| {
        unbroken(asked, 13, || {
            asked.table.head[LEAVES] > 512 && records(asked) > 512
        })
    }),
    ("unjudged-by-release", |asked| {
        unbroken(asked, 13, || asked.call == Call::Release)
    }),
    ("unjudged-by-report", |asked| {
        unbroken(asked, 14, || matches!(asked.call, Call::Report(..)))
    }),
    ("unjudged-by-end", |asked| {
        unbroken(asked, 14, || matches!(asked.call, Call::End(_)))
    }),
    ("unjudged-while-running", |asked| {
        unbroken(asked, 12, || asked.state.is_running())
    }),
];
