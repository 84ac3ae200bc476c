//! The answer to each line.

use reference::calls::{Answer, Call, Controller, Word};
use reference::composed::{Composed, Place};
use reference::numbers::Numbers;
use reference::replay::call_of;

use super::forms::{self, Change};
use super::planted::planted;
use super::sums::Sums;
use super::Printer;

pub struct Answers<'a> {
    composed: &'a Composed<'a>,
    controller: Controller<'a, Composed<'a>>,
    change: Change,
    sums: Sums,
    /// Lines so far.
    lines: usize,
    /// Reports of the open release.
    reports: usize,
    /// Whether no more lines are answered.
    closed: bool,
}

/// The stretch at a place, and what is planted there: that of its point, of the first
/// visit of a loop, or of the call alone that the visit is in.
fn stretch(composed: &Composed, place: &Place) -> u64 {
    let Some((&(leaf, _), outer)) = place.split_last() else {
        return composed.stretch_at(place);
    };
    if planted("stretch-of-point") {
        return composed.stretch(leaf);
    }
    if planted("stretch-of-first-visit") {
        return composed.stretch_at(&[outer, &[(leaf, 1)]].concat());
    }
    if planted("stretch-without-callers") && !outer.is_empty() {
        return composed.plan().leaves()[leaf].1.loaded;
    }
    composed.stretch_at(place)
}

/// What is needed at a place beside the elapsed time, and what is planted there.
fn needed(composed: &Composed, place: &Place) -> u64 {
    let never_final = match composed.last_point(place) {
        None => planted("release-never-final"),
        Some(_) => planted("reports-never-final"),
    };
    let needed = composed.needed_with(place, stretch(composed, place));
    match never_final && composed.is_final(place) {
        true => needed + composed.remaining(place) + composed.plan().switch,
        false => needed,
    }
}

impl<'a> Answers<'a> {
    pub fn new(composed: &'a Composed<'a>) -> Answers<'a> {
        Answers {
            composed,
            controller: Controller::by_rule(composed, needed),
            change: forms::change(),
            sums: Sums::default(),
            lines: 0,
            reports: 0,
            closed: false,
        }
    }

    fn of_another_form(&mut self, line: &[u8]) -> String {
        let idle = !self.controller.is_running();
        if planted("18-after-14") && idle && !line.starts_with(b"release") {
            return self.refused(14);
        }
        if planted("18-after-12") && !idle && line.starts_with(b"release") {
            return self.refused(12);
        }
        self.refused(18)
    }

    fn refused(&mut self, number: u32) -> String {
        self.closed |= planted("refused-line-ends-log");
        if planted("refused-line-unanswered") {
            return String::new();
        }
        match planted("refusal-with-line") {
            true => format!("refused {number} {}\n", self.lines),
            false => format!("refused {number}\n"),
        }
    }

    /// The answer to a call, and what is planted in that of a final decision.
    fn answer(&mut self, call: Call) -> Answer {
        let mut answer = self.controller.call(call);
        if let Answer::Decision { remaining, .. } = &mut answer {
            let place = self.controller.place();
            let is_final = place.is_some_and(|place| self.composed.is_final(place));
            if is_final && planted("final-remaining-0") {
                *remaining = 0;
            }
        }
        answer
    }

    /// The line of an answer, and what is planted in that of resume.
    fn shown(answer: Answer) -> String {
        match answer {
            Answer::Decision {
                word: word @ Word::Resume,
                late,
                ..
            } if planted("return-without-numbers") => Answer::End { word, late }.line() + "\n",
            Answer::End {
                word: word @ Word::Resume,
                late,
            } if planted("end-with-numbers") => {
                format!("{} 0 0 {}\n", word.text(), u8::from(late))
            }
            answer => answer.line() + "\n",
        }
    }

    fn call(&mut self, call: Call) -> String {
        let answer = self.answer(call);
        match (call, answer) {
            (_, Answer::Refused(number)) => {
                let sums = self.of_refused(call);
                self.refused(number) + &sums
            }
            (_, Answer::Decision { word, .. }) => {
                let reading = self.controller.last_reading();
                match call {
                    Call::Release => self.sums.released(word),
                    _ => self.sums.reported(reading, word, self.reports == 0),
                }
                self.reports = if call == Call::Release {
                    0
                } else {
                    self.reports + 1
                };
                Self::shown(answer)
            }
            (Call::End(reading), Answer::End { .. }) => {
                let sums = self.sums.line(reading);
                let answer = Self::shown(answer);
                match () {
                    _ if planted("sums-left-out") => answer,
                    _ if planted("sums-before-answer") => sums + &answer,
                    _ => answer + &sums,
                }
            }
            _ => unreachable!("only an end is answered as one"),
        }
    }

    /// What is planted at refused calls: it moves the sums, or prints them.
    fn of_refused(&mut self, call: Call) -> String {
        match call {
            Call::Release if planted("refused-release-clears-sums") => self.sums.clear(),
            Call::Report(_, reading) if planted("refused-report-ends-gap") => {
                self.sums.gap(reading)
            }
            Call::End(reading) if planted("refused-end-adds-gap") => self.sums.gap(reading),
            Call::End(_) if planted("refused-end-clears-sums") => self.sums.clear(),
            Call::End(reading) if planted("sums-behind-refused-end") => {
                return self.sums.line(reading)
            }
            _ => {}
        }
        String::new()
    }
}

impl Printer for Answers<'_> {
    fn line(&mut self, line: &[u8]) -> String {
        self.lines += 1;
        if planted("log-of-65536-lines") && self.lines > 65_536 {
            return String::new();
        }
        if planted("blank-lines-skipped") && line == b"\n" {
            return String::new();
        }
        match call_of(&(self.change)(line)) {
            Some(call) => self.call(call),
            None => self.of_another_form(line),
        }
    }

    fn end(&mut self) -> String {
        match planted("sums-at-log-end") && self.controller.is_running() {
            true => self.sums.line(self.controller.last_reading()),
            false => String::new(),
        }
    }

    fn closed(&self) -> bool {
        self.closed
    }
}
