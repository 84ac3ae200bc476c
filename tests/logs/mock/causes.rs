//! What is printed for the last report of a log.

use reference::calls::{Answer, Call, Controller, Word};
use reference::cause::{ask, listed_leaves, shown, taken_off, Asked, Causes as _};
use reference::cause_by_forms::{Rule, RULE};
use reference::composed::{Composed, Place};
use reference::numbers::Numbers;
use reference::plan::{Kind, Plan};
use reference::replay::call_of;

use super::forms::{self, Change};
use super::planted::planted;
use super::Printer;

pub struct Causes<'a> {
    composed: &'a Composed<'a>,
    controller: Controller<'a, Composed<'a>>,
    change: Change,
    /// The last report so far, what it asks for, and the reading accepted before it.
    last: Option<Asked<Place>>,
    report: (u64, u64),
    earlier: u64,
    /// Lines so far.
    lines: usize,
    /// Whether no more lines are looked at.
    closed: bool,
}

/// How ways are chosen, and what is planted there.
fn rule() -> Rule {
    let then = match () {
        _ if planted("else-on-ties") => |by_then, by_else| by_then > by_else,
        _ if planted("then-always") => |_, _| true,
        _ if planted("cheaper-part") => |by_then, by_else| by_then <= by_else,
        _ => RULE.then,
    };
    let leave = match () {
        _ if planted("round-on-ties") => |leaving, turning| leaving > turning,
        _ if planted("loops-always-left") => |_, _| true,
        _ if planted("loops-never-left") => |_, _| false,
        _ => RULE.leave,
    };
    Rule {
        then,
        leave,
        behind: !planted("parts-alone"),
    }
}

/// The place whose way is followed, and what is planted there: another visit of the loop.
fn followed(plan: &Plan, place: &Place) -> Place {
    let mut place = place.clone();
    if let Some((leaf, visits)) = place.last_mut() {
        match plan.leaves()[*leaf].1.kind {
            Kind::Loop(..) if planted("way-of-first-visit") => *visits = 1,
            Kind::Loop(bound, _) if planted("last-visit-turns") => *visits = bound.min(*visits),
            _ => {}
        }
    }
    place
}

/// How often each leaf is visited, and what is planted there.
fn visits(composed: &Composed, place: &Place) -> Vec<u128> {
    let plan = composed.plan();
    let mut visits = composed.visits_by(&followed(plan, place), rule());
    if planted("way-by-isolated-costs") {
        let mut alone = plan.clone();
        alone.change_all(|form| form.loaded = form.isolated);
        visits = Composed::new(&alone).visits(place);
    }
    let leaves = plan.leaves();
    let last = composed.last_point(place).unwrap_or(0);
    for (function, form) in &leaves {
        let count = &mut visits[form.leaf];
        match form.kind {
            Kind::Loop(..) if planted("conditions-as-bodies") && *count > 1 => *count -= 1,
            _ if planted("callers-left-out") && *function != leaves[last].0 => *count = 0,
            _ if planted("each-leaf-once") => *count = 1.min(*count),
            _ if planted("counts-in-16-bits") => *count &= 0xffff,
            _ if planted("counts-in-32-bits") => *count &= 0xffff_ffff,
            _ => {}
        }
    }
    if planted("report-left-out") {
        visits[last] = 0;
    }
    visits
}

/// The leaves that are listed, and what is planted there.
fn leaves(composed: &Composed, place: &Place) -> Vec<(usize, u128)> {
    let visits = visits(composed, place);
    let mut list = listed_leaves(composed, &visits);
    let all = composed.plan().leaves();
    if planted("costless-leaves-listed") {
        let visited = all.iter().filter(|(_, form)| visits[form.leaf] > 0);
        list = visited
            .map(|(_, form)| (form.leaf, visits[form.leaf]))
            .collect();
    }
    if planted("unvisited-leaves-listed") {
        let costly = all.iter().filter(|(_, form)| form.loaded > 0);
        list = costly
            .map(|(_, form)| (form.leaf, visits[form.leaf]))
            .collect();
    }
    match () {
        _ if planted("last-leaf-left-out") => drop(list.pop()),
        _ if planted("leaves-reversed") => list.reverse(),
        _ if planted("leaves-by-count") => list.sort_by_key(|&(_, count)| count),
        _ if planted("report-first") => {
            let last = composed.last_point(place);
            list.sort_by_key(|&(leaf, _)| Some(leaf) != last);
        }
        _ if planted("count-off-by-one") => {
            list.iter_mut().for_each(|(_, count)| *count += 1);
        }
        _ => {}
    }
    list
}

impl<'a> Causes<'a> {
    pub fn new(composed: &'a Composed<'a>) -> Causes<'a> {
        Causes {
            composed,
            controller: Controller::new(composed),
            change: forms::change(),
            last: None,
            report: (0, 0),
            earlier: 0,
            lines: 0,
            closed: false,
        }
    }

    fn call(&mut self, call: Call) {
        if let Call::Report(number, reading) = call {
            return self.asked(number, reading);
        }
        let accepted = !matches!(self.controller.call(call), Answer::Refused(_));
        self.closed |= planted("refused-line-ends-log") && !accepted;
        let forgets = match call {
            Call::End(_) => planted("end-forgets-report") && accepted,
            _ => planted("release-forgets-report") && accepted,
        };
        if forgets || planted("last-line-alone") {
            self.last = None;
        }
    }

    fn asked(&mut self, number: u64, reading: u64) {
        let earlier = self.controller.last_reading();
        let asked = match planted("fresh-state") {
            true => ask(&mut Controller::new(self.composed), number, reading),
            false => ask(&mut self.controller, number, reading),
        };
        let accepted = asked.place.is_some();
        self.closed |= planted("refused-line-ends-log") && !accepted;
        let kept = match () {
            _ if planted("first-report") => self.last.is_some(),
            _ if planted("last-accepted-report") => !accepted,
            _ => false,
        };
        if !kept {
            self.last = Some(asked);
            self.report = (number, reading);
            self.earlier = earlier;
        }
    }

    fn of_another_form(&mut self, line: &[u8]) {
        self.closed |= planted("refused-line-ends-log");
        if planted("broken-reports-count") && line.starts_with(b"point") {
            self.last = Some(Asked {
                answer: Answer::Refused(18),
                place: None,
                elapsed: 0,
                suspended: false,
            });
        }
        if planted("last-line-alone") {
            self.last = None;
        }
    }

    /// The numbers of the last line, and what is planted there.
    fn last_line(&self, asked: &Asked<Place>, place: &Place) -> [u64; 4] {
        let (composed, plan) = (self.composed, self.composed.plan());
        let is_final = composed.is_final(place);
        let u = plan.cost_of_return(true);
        let word = match asked.answer {
            Answer::Decision { word, .. } => word,
            _ => unreachable!("a report that is accepted is a decision"),
        };
        let suspended = match () {
            _ if planted("return-cost-always") => true,
            _ if planted("return-cost-never") => false,
            _ if planted("return-cost-at-suspend") => word == Word::Suspend || asked.suspended,
            _ if planted("return-cost-at-go") => word == Word::Go || asked.suspended,
            _ if planted("return-cost-at-resume-alone") => word == Word::Resume,
            _ if planted("return-cost-at-stay-alone") => word == Word::Stay,
            _ => asked.suspended,
        };
        let mut last = taken_off(composed, place, asked.elapsed, suspended);
        match () {
            _ if planted("remaining-where-final") => last[2] = composed.remaining(place),
            _ if planted("remaining-never") => last[2] = 0,
            _ if planted("remaining-of-release") && !is_final => last[2] = composed.total(),
            _ if planted("switch-where-final") && is_final => last[3] += plan.switch,
            _ if planted("switch-never") && !is_final => last[3] -= plan.switch,
            _ if planted("return-cost-not-where-final") && is_final => last[3] = 0,
            _ if planted("return-cost-alone") && asked.suspended => last[3] = u,
            _ if planted("elapsed-since-last") => last[1] -= self.earlier,
            _ if planted("elapsed-in-32-bits") => last[1] &= 0xffff_ffff,
            _ if planted("deadline-less-elapsed") => last[0] = last[0].saturating_sub(last[1]),
            _ => {}
        }
        last
    }

    fn explained(&self, asked: &Asked<Place>) -> String {
        let Some(place) = &asked.place else {
            return match planted("refusal-with-line") {
                true => format!("{} {}\n", asked.answer.line(), self.lines),
                false => asked.answer.line() + "\n",
            };
        };
        let list = leaves(self.composed, place);
        let last = self.last_line(asked, place);
        match () {
            _ if planted("answer-too") => asked.answer.line() + "\n" + &shown(&list, last),
            _ if planted("last-line-left-out") => {
                let lines = shown(&list, last);
                let end = lines.trim_end().rfind('\n').map_or(0, |at| at + 1);
                lines[..end].to_string()
            }
            _ if planted("last-line-first") => shown(&[], last) + &only_leaves(&list),
            _ => shown(&list, last),
        }
    }
}

fn only_leaves(list: &[(usize, u128)]) -> String {
    let lines = list.iter().map(|(leaf, count)| format!("{leaf} {count}\n"));
    lines.collect()
}

impl Printer for Causes<'_> {
    fn line(&mut self, line: &[u8]) -> String {
        self.lines += 1;
        if planted("log-of-65536-lines") && self.lines > 65_536 {
            return String::new();
        }
        match call_of(&(self.change)(line)) {
            Some(call) => self.call(call),
            None => self.of_another_form(line),
        }
        String::new()
    }

    fn end(&mut self) -> String {
        if planted("state-behind") && self.last.is_some() {
            let (number, reading) = self.report;
            self.last = Some(ask(&mut self.controller, number, reading));
        }
        match &self.last {
            Some(asked) => self.explained(asked),
            None if planted("no-report-refused") => "refused 14\n".to_string(),
            None => String::new(),
        }
    }

    fn closed(&self) -> bool {
        self.closed
    }
}
