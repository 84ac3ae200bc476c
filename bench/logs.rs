//! Logs of a plan: runs with random accepted readings, and among them lines that are refused.

use crate::memory::State;
use crate::plans::Plan;
use crate::random::Random;
use crate::reference::calls::{end, release, report, REFUSED};

/// Of a hundred lines, so many are none of the run's; and of a hundred places where a run can end, so many are its end.
const STRAYS: u64 = 2;
const ENDS: u64 = 25;

/// A gap is at most so many times what the leaves between take alone, and one more: decisions turn in the course of a run.
const LONGEST: u64 = 3;

/// The next point is looked for so near in the text first.
const NEAR: u64 = 8;

/// Lines of another form.
const GARBLED: [&str; 10] = [
    "",
    " release",
    "Release",
    "release 0",
    "point 0",
    "point 01 5",
    "point 0 18446744073709551616",
    "point  1 20",
    "end -1",
    "end 7 ",
];

struct Writer<'a> {
    plan: &'a Plan,
    random: Random,
    /// Where the lines so far lead.
    state: State,
    log: String,
}

impl Writer<'_> {
    fn release(&mut self) {
        let Plan { row, head, .. } = self.plan;
        release(row, head, &mut self.state);
        self.log.push_str("release\n");
    }

    fn report(&mut self, point: u64, reading: u64) {
        let Plan { row, head, .. } = self.plan;
        report(row, head, &mut self.state, point, reading);
        self.log.push_str(&format!("point {point} {reading}\n"));
    }

    fn end(&mut self, reading: u64) {
        let Plan { row, head, .. } = self.plan;
        end(row, head, &mut self.state, reading);
        self.log.push_str(&format!("end {reading}\n"));
    }

    /// What remains at a point; None where it cannot come next.
    fn remaining(&self, point: u64) -> Option<u64> {
        let Plan { row, head, .. } = self.plan;
        let reading = self.state.reading;
        let reply = report(row, head, &mut self.state.clone(), point, reading);
        (reply.word != REFUSED).then_some(reply.remaining)
    }

    fn can_end(&self) -> bool {
        let Plan { row, head, .. } = self.plan;
        let reading = self.state.reading;
        end(row, head, &mut self.state.clone(), reading).word != REFUSED
    }

    /// A point that can come next, and what remains there.
    fn next(&mut self) -> Option<(u64, u64)> {
        let (plan, state) = (self.plan, self.state);
        let leaves = plan.leaves as u64;
        let stack = state.leaves[1..=state.level as usize].iter().rev();
        let starts = stack.flat_map(|&leaf| [leaf, plan.row[leaf as usize].after]);
        let mut found = None;
        for point in starts.flat_map(|start| start..(start + NEAR).min(leaves)) {
            if let Some(remaining) = self.remaining(point) {
                found = Some((point, remaining));
                if self.random.chance(50) {
                    break;
                }
            }
        }
        let all = |point| Some((point, self.remaining(point)?));
        found.or_else(|| (0..leaves).find_map(all))
    }

    /// A reading behind the last one, where the leaves between take so long alone.
    fn later(&mut self, alone: u64) -> u64 {
        self.state.reading + self.random.below(LONGEST * alone + 2)
    }

    /// The next line of a run.
    fn step(&mut self) {
        if self.state.running == 0 {
            return self.release();
        }
        let before = self.state.times[self.state.level as usize];
        let next = match self.can_end() && self.random.chance(ENDS) {
            true => None,
            false => self.next(),
        };
        match next {
            Some((point, remaining)) => {
                let reading = self.later(before - remaining);
                self.report(point, reading);
            }
            None => {
                let reading = self.later(before);
                self.end(reading);
            }
        }
    }

    /// A line that is mostly refused.
    fn stray(&mut self) {
        let (leaves, reading) = (self.plan.leaves as u64, self.state.reading);
        let point = self.random.below(leaves);
        match self.random.below(6) {
            0 => self.release(),
            1 => self.report(point, reading),
            2 => self.report(point, reading.saturating_sub(1)),
            3 => self.report(leaves, reading),
            4 => self.end(reading),
            _ => {
                self.log.push_str(self.random.pick(&GARBLED));
                self.log.push('\n');
            }
        }
    }
}

/// A log of so many lines.
pub fn log(plan: &Plan, lines: usize) -> String {
    let mut writer = Writer {
        plan,
        random: Random::new(2),
        state: State::FRESH,
        log: String::new(),
    };
    for _ in 0..lines {
        match writer.random.chance(STRAYS) {
            true => writer.stray(),
            false => writer.step(),
        }
    }
    writer.log
}
