//! What held the others back (02, L9): how often each leaf is visited on the way from a
//! report, and what is printed for a plan and a log, written from the words of the request.
//! The way is found twice: picked from the list of all runs, and followed form by form.

use super::calls::{Answer, Call, Controller};
use super::composed::Composed;
use super::listed::Listed;
use super::numbers::Numbers;
use super::replay::{self, call_of};

pub trait Causes: Numbers {
    /// How often each leaf is visited from the last report of this place up to the next
    /// point or the end: on a way with the largest sum of M, by then where the parts of an
    /// if give equal sums up to there, and by leaving where going round a loop and leaving
    /// it do.
    fn visits(&self, place: &Self::Place) -> Vec<u128>;
}

/// The leaves that are listed, with their counts: those without a visit or with M = 0 are
/// left out.
pub fn listed_leaves<N: Numbers>(numbers: &N, visits: &[u128]) -> Vec<(usize, u128)> {
    let leaves = numbers.plan().leaves().into_iter();
    let counts = leaves.map(|(_, form)| (form, visits[form.leaf]));
    counts
        .filter(|&(form, count)| form.loaded > 0 && count > 0)
        .map(|(form, count)| (form.leaf, count))
        .collect()
}

/// The numbers of the last line: D, elapsed, remaining where it counts, and the sum of the
/// T and U taken off. Where no further point can come neither remaining nor T is (02, L3);
/// U is where the others were suspended before the report, in an edition 2 plan (02, L7).
pub fn taken_off<N: Numbers>(
    numbers: &N,
    place: &N::Place,
    elapsed: u64,
    suspended: bool,
) -> [u64; 4] {
    let plan = numbers.plan();
    let (remaining, switch) = match numbers.is_final(place) {
        true => (0, 0),
        false => (numbers.remaining(place), plan.switch),
    };
    let taken = switch + plan.cost_of_return(suspended);
    [plan.deadline, elapsed, remaining, taken]
}

/// What is printed for an accepted report: a line for each of these leaves with its count,
/// and the last line.
pub fn shown(leaves: &[(usize, u128)], last: [u64; 4]) -> String {
    let lines = leaves
        .iter()
        .map(|(leaf, count)| format!("{leaf} {count}\n"));
    let [deadline, elapsed, remaining, taken] = last;
    lines.collect::<String>() + &format!("{deadline} {elapsed} {remaining} {taken}\n")
}

/// A report as it was asked: its answer, where it leads if that is a decision, its reading,
/// and whether the others were suspended before it.
pub struct Asked<P> {
    pub answer: Answer,
    pub place: Option<P>,
    pub elapsed: u64,
    pub suspended: bool,
}

/// Asks for this report.
pub fn ask<N: Numbers>(
    controller: &mut Controller<N>,
    number: u64,
    reading: u64,
) -> Asked<N::Place> {
    let suspended = controller.suspended();
    let answer = controller.report(number, reading);
    let accepted = matches!(answer, Answer::Decision { .. });
    Asked {
        answer,
        place: controller.place().filter(|_| accepted).cloned(),
        elapsed: reading,
        suspended,
    }
}

/// The number and reading of a line of the form `point N E`.
fn report_of(line: &[u8]) -> Option<(u64, u64)> {
    match call_of(line)? {
        Call::Report(number, reading) => Some((number, reading)),
        Call::Release | Call::End(_) => None,
    }
}

/// The last report of a log, asked in the state that the lines before it lead to; None where
/// it has none. What comes behind it plays no part.
pub fn last_asked<N: Numbers>(numbers: &N, log: &[u8]) -> Option<Asked<N::Place>> {
    let lines: Vec<&[u8]> = log.split_inclusive(|&byte| byte == b'\n').collect();
    let last = lines.iter().rposition(|line| report_of(line).is_some())?;
    let mut controller = Controller::new(numbers);
    for call in lines[..last].iter().filter_map(|line| call_of(line)) {
        controller.call(call);
    }
    let (number, reading) = report_of(lines[last])?;
    Some(ask(&mut controller, number, reading))
}

/// What is printed for a log on an accepted plan with these numbers.
pub fn explained<N: Causes>(numbers: &N, log: &[u8]) -> String {
    let Some(asked) = last_asked(numbers, log) else {
        return String::new();
    };
    let Some(place) = asked.place else {
        return asked.answer.line() + "\n";
    };
    let leaves = listed_leaves(numbers, &numbers.visits(&place));
    let last = taken_off(numbers, &place, asked.elapsed, asked.suspended);
    shown(&leaves, last)
}

/// What is printed for the text of a plan and a log.
pub fn printed(text: &[u8], log: &[u8]) -> String {
    let by_runs: fn(&Listed, &[u8]) -> String = |numbers, log| explained(numbers, log);
    let by_forms: fn(&Composed, &[u8]) -> String = |numbers, log| explained(numbers, log);
    replay::printed_by(text, log, by_runs, by_forms)
}
