//! Plans with very many short runs: the first line comes after little work, lines far on need no more
//! memory than near ones, lists of up to a million end where they should, and where nobody
//! reads on, the program ends.

use reference::many_runs::{self, Case};
use reference::ordered_runs;
use reference::plan::{self, MOST_LEAVES};
use reference::program::Ended;
use reference::short_runs::{printed, Costs, MOST_VISITS};

use super::comparison::{closed_fault, whole_fault, Comparison};
use super::open::Open;

/// The most lines of a list that is compared to its end.
const WHOLE: u128 = 2_000_000;

/// The lines that are compared of these plans; of others with longer lists the first ones.
const FAR: usize = 100_000;
const READ_FAR: [&str; 4] = [
    "30 ifs",
    "30 ifs and 4 leaves",
    "an if in a loop",
    "an if with an empty part in a loop",
];

/// The lines behind which the memory is measured first: what a step needs was in use by then.
const NEAR: usize = 1_000;

/// How many hundredths of a second a program may work for the first line.
const AT_ONCE: u64 = 20;

/// How many kilobytes of memory the lines behind them may need more: a few pages, less than
/// a byte a line.
const MORE: u64 = 32;

/// How many bytes so many lines have.
fn length(lines: &str, count: usize) -> usize {
    lines.split_inclusive('\n').take(count).map(str::len).sum()
}

/// Compares a list to its end, line by line.
fn read_whole(comparison: &mut Comparison, case: &Case) {
    let text = case.plan.as_bytes();
    let plan = plan::read(text, MOST_LEAVES).expect("the plan is accepted");
    let costs = Costs::new(&plan);
    let (mut line, mut count) = (String::new(), 0);
    let found = Open::new(&comparison.program, text).and_then(|mut open| {
        let mut output = Vec::new();
        let alike = ordered_runs::each(&plan, MOST_VISITS, |leaves| {
            line = costs.run(leaves).line();
            output = open.take(line.len());
            count += 1;
            output == line.as_bytes()
        });
        if alike {
            line.clear();
            output = open.take(1);
        }
        let ended = open.close()?;
        Ok(Ended { output, ..ended })
    });
    comparison.note(case.name, text, found, |found| {
        let wrong = whole_fault(found, &line)?;
        Some(format!("at line {count} of the list: {wrong}"))
    });
}

/// Compares the first line, those behind it that are near, and the rest, with the memory at
/// the first and at the last of these.
fn read_far(comparison: &mut Comparison, case: &Case) {
    let text = case.plan.as_bytes();
    let wanted = printed(text, FAR).lines;
    let (first, near) = (length(&wanted, 1), length(&wanted, NEAR));
    let (mut worked, mut more) = (None, None);
    let found = Open::new(&comparison.program, text).and_then(|mut open| {
        let mut output = open.take(first);
        worked = Some(open.worked()?);
        output.extend(open.take(near - first));
        let before = open.memory()?;
        output.extend(open.take(wanted.len() - near));
        more = Some(open.memory()?.saturating_sub(before));
        Ok(Ended {
            output,
            ..open.close()?
        })
    });
    comparison.note(case.name, text, found, |found| {
        closed_fault(&found, &wanted)
    });
    let mut little = |found: Option<u64>, most: u64, what: &str| {
        let what = format!("{}: {what}: {found:?}", case.name);
        println!("{what}");
        let little = found.is_some_and(|found| found <= most);
        comparison.count.holds(little, &what);
    };
    little(
        worked,
        AT_ONCE,
        "hundredths of a second before the first line",
    );
    little(more, MORE, "kilobytes of memory more at the last line");
}

pub fn compare_all(comparison: &mut Comparison) {
    for case in many_runs::plans() {
        let text = case.plan.as_bytes();
        match case.count {
            _ if READ_FAR.contains(&case.name) => read_far(comparison, &case),
            count if count <= WHOLE => read_whole(comparison, &case),
            _ => comparison.text(case.name, text),
        }
    }
}
