//! A stand-in for the replay program and, under the name `cause`, for the program that
//! explains a log's last report, made of the reference, with a difference planted on demand.
//! It shows that the comparison finds them.

mod answers;
mod causes;
mod files;
mod forms;
mod lines;
mod planted;
mod sums;

use std::ffi::OsString;
use std::fs::File;
use std::path::Path;

use reference::composed::Composed;
use reference::damage::silenced;
use reference::plan::{self, Plan, Refusal, MOST_LEAVES};

use answers::Answers;
use causes::Causes;
use files::{complain, print, read_plan, Output, Pieces};
use lines::Lines;
use planted::planted;

/// What a program prints for the lines of a log.
trait Printer {
    /// For a line, given with its line feed if it has one.
    fn line(&mut self, line: &[u8]) -> String;

    /// Behind the last line.
    fn end(&mut self) -> String;

    /// Whether no more lines are looked at.
    fn closed(&self) -> bool;
}

/// Whether the program is the one that explains a log's last report.
fn explains() -> bool {
    let name = std::env::args_os().next().unwrap_or_default();
    Path::new(&name).file_name() == Some("cause".as_ref())
}

fn usage() {
    let line = match planted("usage-of-two-lines") {
        true => "usage:\nPLAN LOG\n",
        false => "usage: PLAN LOG\n",
    };
    match () {
        _ if planted("usage-left-out") => {}
        _ if planted("usage-on-output") => print(line),
        _ => eprint!("{line}"),
    }
}

/// The names of the plan and of the log.
fn names() -> Option<[OsString; 2]> {
    let mut words: Vec<OsString> = std::env::args_os().skip(1).collect();
    if planted("third-word-ignored") && words.len() == 3 {
        words.pop();
    }
    if planted("input-as-log") && words.len() == 1 {
        words.push("/dev/stdin".into());
    }
    let option = |word: &OsString| word.as_encoded_bytes().starts_with(b"-");
    if planted("options-read") && words.iter().any(option) {
        return None;
    }
    if planted("words-turned") {
        words.reverse();
    }
    words.try_into().ok()
}

/// The edition of an accepted plan, and what is planted there.
fn with_edition(mut plan: Plan) -> Plan {
    plan.resume = match plan.resume {
        Some(_) if planted("edition-2-as-1") => None,
        Some(_) if planted("return-without-cost") => Some(0),
        None if planted("return-in-edition-1") => Some(0),
        resume => resume,
    };
    plan
}

/// A plan as the reference reads it, or with a point that costs nothing silent.
fn read(text: &[u8]) -> Result<Plan, Refusal> {
    match plan::read(text, MOST_LEAVES) {
        Err((19, line)) if planted("costless-replayed") => {
            plan::read(&silenced(text, line), MOST_LEAVES)
        }
        answer => answer,
    }
}

fn refuse(number: u32, line: usize, log: &OsString) {
    let costless = number == 19 && planted("costless-without-line");
    let refusal = match costless || planted("refused-plan-without-line") {
        true => format!("refused {number}\n"),
        false => format!("refused {number} {line}\n"),
    };
    match planted("refused-plan-on-errors") {
        true => eprint!("{refusal}"),
        false => print(&refusal),
    }
    let opens = planted("refused-plan-opens-log") || planted("refused-plan-waits-for-log");
    let opened = opens.then(|| File::open(log));
    if let (true, Some(Err(error))) = (planted("refused-plan-opens-log"), opened) {
        complain(log, &error);
    }
    let has_lines = || std::fs::read(log).is_ok_and(|log| !log.is_empty());
    if planted("refused-plan-replayed") && has_lines() {
        print("refused 14\n");
    }
}

/// Hands every line of a log to what prints.
fn follow(printer: &mut dyn Printer, name: &OsString) -> std::io::Result<()> {
    let mut pieces = Pieces::open(name)?;
    let mut lines = Lines::new();
    let mut output = Output::new();
    let mut failed = None;
    while failed.is_none() && !printer.closed() {
        let complete = match pieces.next() {
            Ok(Some(piece)) => lines.piece(piece),
            Ok(None) => break,
            Err(error) => {
                failed = Some(error);
                continue;
            }
        };
        for line in complete {
            if !printer.closed() {
                output.add(&printer.line(&line));
            }
        }
        output.write();
    }
    if planted("answers-dropped") && failed.is_some() {
        output.drop();
    }
    let answered = failed.is_none() || planted("cut-line-answered");
    let rest = lines.rest().filter(|_| answered && !printer.closed());
    if let Some(rest) = rest.filter(|_| !planted("feed-missing-unanswered")) {
        output.add(&printer.line(&rest));
    }
    if failed.is_none() || planted("failed-log-explained") {
        output.add(&printer.end());
    }
    output.finish();
    failed.map_or(Ok(()), Err)
}

/// What is printed for a log on an accepted plan.
fn print_log(plan: &Plan, name: &OsString) -> std::io::Result<()> {
    let composed = Composed::new(plan);
    match explains() {
        true => follow(&mut Causes::new(&composed), name),
        false => follow(&mut Answers::new(&composed), name),
    }
}

fn main() {
    let Some([plan_name, log]) = names() else {
        return usage();
    };
    if planted("log-opened-first") {
        if let Err(error) = File::open(&log) {
            return complain(&log, &error);
        }
    }
    let text = match read_plan(&plan_name) {
        Ok(text) => text,
        Err(error) => return complain(&plan_name, &error),
    };
    match read(&text) {
        Err((number, line)) => refuse(number, line, &log),
        Ok(plan) => {
            if let Err(error) = print_log(&with_edition(plan), &log) {
                complain(&log, &error);
            }
        }
    }
}
