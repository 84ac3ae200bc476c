//! Tables with numbers changed, or records cut off, and tables that are right but for a
//! point that costs nothing.

use lent::calls::Call;
use lent::law;
use reference::calls::Answer;
use reference::composed::Composed;
use reference::costless::{self, Costless};
use reference::deep;
use reference::edition::editions;
use reference::gen::{self, Random};
use reference::plan::Plan;
use reference::table;

use super::damage::{any_call, change_one, fitting_call, some_state};
use lent::state::State;
use lent::tally::Tally;

/// Calls on each table with a point that costs nothing.
const CALLS: usize = 6;

/// Every number of a table changed, with an idle and a running state.
fn every_number_of_table(tally: &mut Tally, random: &mut Random, plan: &Plan) {
    let composed = Composed::new(plan);
    let mut table = table::table(&composed);
    for at in 0..table.count() {
        let old = *table.number(at);
        for new in random.others(old) {
            *table.number(at) = new;
            let state = match random.chance(30) {
                true => State::fresh(),
                false => some_state(random, &composed),
            };
            let call = match random.chance(80) {
                true => fitting_call(random, &composed, &state),
                false => any_call(random, plan, &state),
            };
            let wanted = law::on_table(&table, &state, call);
            let group = format!("{} {new} in place of {old}", table.name(at));
            tally.call(&group, &table, &state, call, &wanted);
        }
        *table.number(at) = old;
    }
}

fn tables(tally: &mut Tally) {
    let mut random = Random::new(84);
    for edition in editions(80) {
        let plan = gen::small_plan(&mut random, edition);
        every_number_of_table(tally, &mut random, &plan);
    }
    for (name, plan) in deep::plans() {
        let composed = Composed::new(&plan);
        let table = table::table(&composed);
        for _ in 0..100 {
            let mut changed = table.clone();
            change_one(&mut random, &mut changed);
            let state = some_state(&mut random, &composed);
            let call = fitting_call(&mut random, &composed, &state);
            let wanted = law::on_table(&changed, &state, call);
            tally.call(name, &changed, &state, call, &wanted);
        }
    }
}

/// Rows cut off: the table is that of no plan any more.
fn shorter_rows(tally: &mut Tally) {
    let mut random = Random::new(85);
    for edition in editions(800) {
        let plan = gen::small_plan(&mut random, edition);
        let composed = Composed::new(&plan);
        let table = table::table(&composed);
        let records = table.row.len();
        for cut in [1, 8, records] {
            let mut shorter = table.clone();
            shorter.row.truncate(records.saturating_sub(cut));
            let state = some_state(&mut random, &composed);
            let call = fitting_call(&mut random, &composed, &state);
            let wanted = law::on_table(&shorter, &state, call);
            tally.call("a row cut off", &shorter, &state, call, &wanted);
        }
    }
}

/// Makes these calls on a plan's table, on a fresh state and on one that stands in the
/// plan; gives how many of them rule 11 is to refuse.
fn calls_on(tally: &mut Tally, random: &mut Random, group: &str, plan: &Plan) -> usize {
    let composed = Composed::new(plan);
    let table = table::table(&composed);
    let standing = some_state(random, &composed);
    let reading = standing.reading();
    let calls: [(State, Call); CALLS] = [
        (State::fresh(), Call::Release),
        (State::fresh(), any_call(random, plan, &standing)),
        (standing.clone(), Call::Release),
        (standing.clone(), Call::Report(0, reading)),
        (standing.clone(), Call::End(reading)),
        (standing.clone(), fitting_call(random, &composed, &standing)),
    ];
    let mut refused = 0;
    for (state, call) in calls {
        let wanted = law::on_table(&table, &state, call);
        refused += usize::from(wanted.answer == Answer::Refused(11));
        tally.call(group, &table, &state, call, &wanted);
    }
    refused
}

/// No call takes a table with a point that costs nothing, in every kind of leaf, where
/// all numbers are right but for that. With the leaf silent, each takes it.
fn costless_points(tally: &mut Tally) {
    let mut random = Random::new(91);
    for Costless { plan, silent, .. } in costless::plans(&mut random, 100) {
        let refused = calls_on(tally, &mut random, "a point that costs nothing", &plan);
        tally.holds(refused == CALLS, || format!("{refused} of {plan:?}"));
        if let Some(silent) = silent {
            let group = "a silent leaf that costs nothing";
            let refused = calls_on(tally, &mut random, group, &silent);
            tally.holds(refused == 0, || format!("{refused} of {silent:?}"));
        }
    }
}

pub fn compare_all(tally: &mut Tally) {
    tables(tally);
    shorter_rows(tally);
    costless_points(tally);
}
