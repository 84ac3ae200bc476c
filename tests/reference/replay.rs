//! What the replay program is to print for a plan and a log, written from request
//! L1 of document 02 and the sentences of document 01 alone. The table is that of
//! the plan just read and the state always one that the calls left, so no line is
//! refused by 11.

use super::calls::{Answer, Call, Controller, Word};
use super::composed::Composed;
use super::listed::Listed;
use super::numbers::Numbers;
use super::plan::{self, MOST_LEAVES};

/// The runs of a plan are listed if there are no more.
const MOST_RUNS: usize = 500;

/// A number below 2^64 without a leading zero.
fn number(field: &[u8]) -> Option<u64> {
    let plain = match field {
        [b'0'] => true,
        [b'1'..=b'9', rest @ ..] => rest.iter().all(u8::is_ascii_digit),
        _ => false,
    };
    let digits = std::str::from_utf8(field).ok().filter(|_| plain)?;
    // What does not fit 64 bits is no number here.
    digits.parse().ok()
}

/// The call that a line asks for, given with its line feed if it has one; None
/// where it is of another form.
pub fn call_of(line: &[u8]) -> Option<Call> {
    let line = line.strip_suffix(b"\n")?;
    let fields: Vec<&[u8]> = line.split(|&byte| byte == b' ').collect();
    match fields.as_slice() {
        [b"release"] => Some(Call::Release),
        [b"point", n, e] => Some(Call::Report(number(n)?, number(e)?)),
        [b"end", e] => Some(Call::End(number(e)?)),
        _ => None,
    }
}

/// An accepted release or report: its reading, and whether the gap after it is shared,
/// the answer being go or, in an edition 2 plan, resume (02, L7).
struct Decision {
    reading: u64,
    shared: bool,
}

/// Ticks shared and ticks suspended of a release with these decisions whose end has
/// this reading. A gap belongs to the decision before it.
fn ticks(decisions: &[Decision], end: u64) -> (u64, u64) {
    let later = decisions.iter().skip(1).map(|decision| decision.reading);
    let (mut shared, mut suspended) = (0, 0);
    for (decision, next) in decisions.iter().zip(later.chain([end])) {
        let gap = next - decision.reading;
        match decision.shared {
            true => shared += gap,
            false => suspended += gap,
        }
    }
    (shared, suspended)
}

/// A log as far as it is read.
pub struct Replay<'a, N: Numbers> {
    controller: Controller<'a, N>,
    /// Those of the open release.
    decisions: Vec<Decision>,
}

impl<'a, N: Numbers> Replay<'a, N> {
    pub fn new(numbers: &'a N) -> Replay<'a, N> {
        Replay {
            controller: Controller::new(numbers),
            decisions: Vec::new(),
        }
    }

    pub fn controller(&self) -> &Controller<'a, N> {
        &self.controller
    }

    /// What is printed for one line, given with its line feed if it has one.
    pub fn line(&mut self, line: &[u8]) -> String {
        let Some(call) = call_of(line) else {
            return "refused 18\n".to_string();
        };
        let answer = self.controller.call(call);
        let mut printed = answer.line() + "\n";
        match (call, answer) {
            (_, Answer::Decision { word, .. }) => self.decisions.push(Decision {
                reading: self.controller.last_reading(),
                shared: matches!(word, Word::Go | Word::Resume),
            }),
            (Call::End(reading), Answer::End { .. }) => printed += &self.sums(reading),
            _ => {}
        }
        printed
    }

    /// The line after the answer of an accepted end with this reading.
    fn sums(&mut self, reading: u64) -> String {
        let (shared, suspended) = ticks(&self.decisions, reading);
        self.decisions.clear();
        let sum = shared + suspended;
        assert_eq!(sum, reading, "the sum equals the end reading");
        format!("{shared} {suspended} {sum}\n")
    }
}

/// What is printed for a log on an accepted plan with these numbers.
pub fn answers<N: Numbers>(numbers: &N, log: &[u8]) -> String {
    let mut replay = Replay::new(numbers);
    log.split_inclusive(|&byte| byte == b'\n')
        .map(|line| replay.line(line))
        .collect()
}

/// What a program prints for the text of a plan and a log, by how it answers the log of an
/// accepted plan: from the list of runs where that is short, else form by form.
pub fn printed_by(
    text: &[u8],
    log: &[u8],
    by_runs: fn(&Listed, &[u8]) -> String,
    by_forms: fn(&Composed, &[u8]) -> String,
) -> String {
    let plan = match plan::read(text, MOST_LEAVES) {
        Ok(plan) => plan,
        Err((number, line)) => return format!("refused {number} {line}\n"),
    };
    match Listed::new(&plan, MOST_RUNS) {
        Some(listed) => by_runs(&listed, log),
        None => by_forms(&Composed::new(&plan), log),
    }
}

/// What is printed for the text of a plan and a log.
pub fn printed(text: &[u8], log: &[u8]) -> String {
    let by_runs = |numbers: &Listed, log: &[u8]| answers(numbers, log);
    let by_forms = |numbers: &Composed, log: &[u8]| answers(numbers, log);
    printed_by(text, log, by_runs, by_forms)
}
