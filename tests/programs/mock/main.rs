//! A stand-in for the table program and, under the name `sheet`, for the sheet program,
//! made of the reference, with a difference planted on demand. It shows that the
//! comparison finds them.

mod input;
mod planted;
mod sheet;

use std::io::Write;

use reference::composed::Composed;
use reference::numbers::{figures, Figures, Numbers};
use reference::plan::{Form, Kind, Plan};

use input::{input, read, refused};
use planted::planted;

/// The stretch of one visit of a point in place of the largest of all, where that is
/// planted: of a loop of the main function the last one, of a point elsewhere that of the
/// first call of its function there, or one behind which no caller comes.
fn of_one_visit(plan: &Plan, composed: &Composed, leaf: usize) -> Option<u64> {
    let leaves = plan.leaves();
    let (function, form) = leaves[leaf];
    let first = |leaf: usize| composed.level(leaf) == 1;
    match form.kind {
        Kind::Loop(bound, _) if planted("stretch-of-last-visit") => {
            let found = function == plan.main() && first(leaf);
            found.then(|| composed.stretch_at(&vec![(leaf, bound + 1)]))
        }
        _ if planted("stretch-of-first-call") && first(leaf) => {
            let is_call = |(of, form): &&(usize, &Form)| {
                *of == plan.main() && form.kind == Kind::Call(function) && first(form.leaf)
            };
            let call = leaves.iter().find(is_call)?.1.leaf;
            Some(composed.stretch_at(&vec![(call, 1), (leaf, 1)]))
        }
        _ if planted("stretch-without-callers") => {
            let alone = Plan {
                functions: plan.functions[..=function].to_vec(),
                ..plan.clone()
            };
            Some(Composed::new(&alone).stretch(leaf))
        }
        _ => None,
    }
}

/// The numbers of a plan, with what is planted in them.
fn numbers(plan: &Plan) -> Figures {
    let composed = Composed::new(plan);
    let mut figures = figures(&composed);
    for point in &mut figures.points {
        let other = of_one_visit(plan, &composed, point[0] as usize);
        point[3] = other.unwrap_or(point[3]);
    }
    if planted("silent-leaves-too") {
        let leaves = plan.leaves();
        let silent = leaves.iter().filter(|(_, form)| !form.point);
        let lines = silent.map(|(_, form)| [form.leaf as u64, 1, 0, 0]);
        figures.points.extend(lines);
    }
    if planted("points-from-1") {
        figures.points.iter_mut().for_each(|point| point[0] += 1);
    }
    if planted("totals-turned") {
        figures.task.swap(0, 1);
    }
    change_resume(&mut figures.task);
    figures
}

/// What is planted in the first line by its U.
fn change_resume(task: &mut Vec<u64>) {
    match task.get(4) {
        Some(_) if planted("resume-left-out") => drop(task.pop()),
        Some(0) if planted("resume-0-left-out") => drop(task.pop()),
        Some(_) if planted("resume-before-switch") => task.swap(3, 4),
        None if planted("resume-in-edition-1") => task.push(0),
        _ => {}
    }
}

/// What the table program prints.
fn listed(answer: Result<Figures, String>) -> String {
    let listing = answer.map_or_else(|refusal| refusal, |figures| figures.listing());
    match planted("spaces-doubled") {
        true => listing.replace(' ', "  "),
        false => listing,
    }
}

/// The name that the stand-in is called by.
fn called(name: &str) -> bool {
    let path = std::env::args().next().unwrap_or_default();
    path.rsplit('/').next() == Some(name)
}

fn main() {
    let plan = read(&input());
    let answer = plan
        .as_ref()
        .map(numbers)
        .map_err(|&refusal| refused(refusal));
    let mut output = match called("sheet") {
        true => sheet::printed(answer),
        false => listed(answer),
    };
    if planted("feed-left-out") {
        output.pop();
    }
    if planted("empty-line-behind") {
        output.push('\n');
    }
    if planted("words-on-errors") {
        eprintln!("done");
    }
    let written = std::io::stdout().write_all(output.as_bytes());
    written.expect("the output is written");
    if planted("status-on-refusal") && plan.is_err() {
        std::process::exit(1);
    }
}
