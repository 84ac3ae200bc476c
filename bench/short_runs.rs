//! Whether the programs that print all short runs print the same bytes, how fast they do, and the tables of that.

use std::io;

use crate::agree::Tally;
use crate::edges;
use crate::programs::{feeds, Pace, Program, Programs, PROGRAMS};
use crate::random::{random_text, spoil, Random};

/// Repetitions, of which the fastest and the median count.
const REPETITIONS: usize = 11;

/// How often the runs of a plan choose between two ways, and how the functions that call one another make as many choices.
#[derive(Clone, Copy)]
struct Size {
    choices: usize,
    calls: &'static [usize],
}

/// Of the plans that are counted and timed to the last line: 2^12 and 2^16 of them.
const COUNTED: Size = Size {
    choices: 12,
    calls: &[2, 2, 3],
};
const TIMED: Size = Size {
    choices: 16,
    calls: &[2, 2, 2, 2],
};

/// Lines that are timed where not all are waited for.
const FIRST: usize = 100_000;

/// Lines that are compared of the plans that are measured, which have so many at least; and of random plans, and how many of these there are.
const COMPARED: usize = 20_000;
const LEAST: usize = 4_095;
const OF_RANDOM: usize = 500;
const TEXTS: usize = 200;

/// The most visits of a run that is printed.
const SHORT: usize = 64;

/// An if with a leaf in each part.
const CHOICE: &str = "(if p 1 2\n(then\n(leaf s 3 90)\n)\n(else\n(leaf s 50 60)\n)\n)\n";

fn task(functions: &[String]) -> String {
    let functions = functions.iter().map(|forms| format!("(fun\n{forms})\n"));
    format!(
        "(task 1099511627776 3\n{})\n",
        functions.collect::<String>()
    )
}

/// Ifs in a row behind leaves in a row.
fn row(leaves: usize, ifs: usize) -> String {
    task(&["(leaf s 1 1)\n".repeat(leaves) + &CHOICE.repeat(ifs)])
}

fn in_loop(bound: usize, body: &str) -> String {
    task(&[format!("(loop p {bound} 1 4\n{body})\n")])
}

/// Functions that call the one before, each so many times; the first one is an if.
fn calling(times: &[usize]) -> String {
    let mut functions = vec![CHOICE.to_string()];
    for (before, count) in times.iter().enumerate() {
        functions.push(format!("(call p {before} 1 5)\n").repeat(*count));
    }
    task(&functions)
}

/// Ifs in both parts of ifs, so many below one another, and leaves in the last ones.
fn tree(height: usize) -> String {
    match height {
        0 => "(leaf s 2 3)\n".to_string(),
        _ => {
            let part = tree(height - 1);
            format!("(if s 1 6\n(then\n{part})\n(else\n{part})\n)\n")
        }
    }
}

struct Measured {
    name: String,
    plan: String,
}

/// Plans of this size, and one of 512 leaves.
fn listed(size: Size) -> Vec<Measured> {
    let Size { choices, calls } = size;
    let (rounds, leaves) = (choices - 1, SHORT - 2 * choices);
    let trees = format!("{}(leaf s 1 1)\n(leaf s 1 1)\n", tree(7).repeat(2));
    let plans = [
        (format!("{choices} ifs"), row(0, choices)),
        (
            format!("an if in a loop of {rounds} rounds"),
            in_loop(rounds, CHOICE),
        ),
        (format!("an if called {choices} times"), calling(calls)),
        (
            format!("{leaves} leaves and {choices} ifs"),
            row(leaves, choices),
        ),
        ("two trees of ifs, 512 leaves".to_string(), task(&[trees])),
    ];
    plans.map(|(name, plan)| Measured { name, plan }).into()
}

/// Plans with more runs than are waited for.
fn endless() -> [Measured; 3] {
    [
        ("30 ifs", row(0, 30)),
        ("an if in a loop of 20 rounds", in_loop(20, CHOICE)),
        (
            "a tree of ifs in a loop, 512 leaves",
            in_loop(65_535, &tree(8)),
        ),
    ]
    .map(|(name, plan)| Measured {
        name: name.to_string(),
        plan,
    })
}

/// Holds the first lines of what the reference prints to those of the proved program; gives them.
fn compare(
    tally: &mut Tally,
    programs: &Programs,
    what: &str,
    plan: &[u8],
    most: usize,
) -> io::Result<Vec<u8>> {
    programs.lay(plan, b"")?;
    let proved = programs.beginning(Program::Proved, most)?;
    for program in [Program::Reference, Program::ReferenceOtherwise] {
        let alike = programs.beginning(program, most)? == proved;
        tally.note(alike, || {
            format!("short runs of {what}: {}", String::from_utf8_lossy(plan))
        });
    }
    Ok(proved)
}

/// Random texts and those at the limits of document 01; no line, one and several must be met, and refusals.
fn texts(tally: &mut Tally, programs: &Programs) -> io::Result<()> {
    let mut random = Random::new(3);
    let mut texts: Vec<Vec<u8>> = edges::texts().into_iter().map(|(text, _)| text).collect();
    for round in 0..TEXTS {
        let mut text = random_text(&mut random);
        if round % 4 == 0 {
            spoil(&mut random, &mut text);
        }
        texts.push(text);
    }
    let mut met = [false; 4];
    for text in texts {
        let printed = compare(tally, programs, "a text", &text, OF_RANDOM)?;
        match feeds(&printed) {
            1 if printed.starts_with(b"refused ") => met[3] = true,
            lines => met[lines.min(2)] = true,
        }
    }
    tally.note(met == [true; 4], || {
        format!("no line, one, several, a refusal: {met:?}")
    });
    Ok(())
}

pub fn agree(tally: &mut Tally, programs: &Programs) -> io::Result<()> {
    let timed = listed(TIMED).into_iter().chain(endless());
    for Measured { name, plan } in listed(COUNTED).into_iter().chain(timed) {
        let printed = compare(tally, programs, &name, plan.as_bytes(), COMPARED)?;
        let lines = feeds(&printed);
        tally.note(lines >= LEAST, || format!("{name}: {lines} lines"));
    }
    texts(tally, programs)
}

/// The fastest and the median of the repetitions.
fn fastest_and_median(mut seconds: Vec<f64>) -> [f64; 2] {
    seconds.sort_by(f64::total_cmp);
    [seconds[0], seconds[seconds.len() / 2]]
}

/// Runs the programs by turns; gives the seconds of each.
fn seconds(measure: impl Fn(Program) -> io::Result<f64>) -> io::Result<[[f64; 2]; PROGRAMS.len()]> {
    let mut runs = PROGRAMS.map(|_| Vec::new());
    for _ in 0..REPETITIONS {
        for (runs, program) in runs.iter_mut().zip(PROGRAMS) {
            runs.push(measure(program)?);
        }
    }
    Ok(runs.map(fastest_and_median))
}

/// What the rows are of.
const LEGEND: &str = "
All short runs of a plan: the proved program beside plain safe Rust that prints the same bytes, and keeps of a line what the next one begins with. The
proved program writes each line by itself; the reference does so too, or writes 64 KB at once.";

/// How the reference writes: both its ways in their order.
const WRITES: [&str; 2] = ["each line", "64 KB"];

/// The rows of a plan, from the seconds that so many lines took.
fn print_rates(name: &str, (lines, bytes): (usize, usize), seconds: [[f64; 2]; PROGRAMS.len()]) {
    let [proved, references @ ..] = seconds;
    for (writes, reference) in WRITES.iter().zip(references) {
        print!("| {name} | {lines} | {} | {writes} |", bytes / lines);
        for (one, other) in proved.iter().zip(reference) {
            let rate = |seconds: f64| lines as f64 / seconds;
            let (one, ratio, other) = (rate(*one), one / other, rate(other));
            print!(" {one:.0} | {other:.0} | {ratio:.2} |");
        }
        println!();
    }
}

fn print_head(what: &str) {
    println!("\n{what} (fastest of {REPETITIONS} runs, and the median); the ratio is that of the times:\n");
    println!("| plan | lines | bytes a line | reference writes | proved, lines a second | reference, lines a second | ratio | the same by medians | | |");
    println!("|---|---|---|---|---|---|---|---|---|---|");
}

fn print_seconds(programs: &Programs) -> io::Result<()> {
    print_head("Lines a second, from a program's start to its end, into /dev/null");
    for Measured { name, plan } in listed(TIMED) {
        programs.lay(plan.as_bytes(), b"")?;
        let Pace { lines, bytes, .. } = programs.pace(Program::Reference, usize::MAX)?;
        let seconds = seconds(|program| programs.seconds(program))?;
        print_rates(&name, (lines, bytes), seconds);
    }
    print_head("Lines a second of the first ones, through a pipe");
    for Measured { name, plan } in endless() {
        programs.lay(plan.as_bytes(), b"")?;
        let bytes = programs.beginning(Program::Reference, FIRST)?.len();
        let seconds = seconds(|program| Ok(programs.pace(program, FIRST)?.seconds))?;
        print_rates(&name, (FIRST, bytes), seconds);
    }
    Ok(())
}

fn print_instructions(programs: &Programs, tunables: &str) -> io::Result<()> {
    println!("\nInstructions of a line (callgrind), from a program's start to its end:\n");
    println!("| plan | lines | bytes a line | reference writes | proved, instructions | reference, instructions | ratio |");
    println!("|---|---|---|---|---|---|---|");
    for Measured { name, plan } in listed(COUNTED) {
        programs.lay(plan.as_bytes(), b"")?;
        let Pace { lines, bytes, .. } = programs.pace(Program::Reference, usize::MAX)?;
        let mut counts = [0.0; PROGRAMS.len()];
        for (count, program) in counts.iter_mut().zip(PROGRAMS) {
            *count = programs.instructions(program, tunables)? / lines as f64;
        }
        let [proved, references @ ..] = counts;
        for (writes, reference) in WRITES.iter().zip(references) {
            let ratio = proved / reference;
            print!("| {name} | {lines} | {} | {writes} |", bytes / lines);
            println!(" {proved:.0} | {reference:.0} | {ratio:.2} |");
        }
    }
    Ok(())
}

/// Instructions are counted where the tunables for callgrind are given.
pub fn print_tables(programs: &Programs, tunables: Option<&str>) -> io::Result<()> {
    println!("{LEGEND}");
    if let Some(tunables) = tunables {
        print_instructions(programs, tunables)?;
    }
    print_seconds(programs)
}
