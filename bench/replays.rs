//! Whether the replay programs print the same bytes, how long they take, and the tables of that.

use std::io;

use crate::agree::Tally;
use crate::logs::log;
use crate::plans::{plan, plan_a, plan_a_2, Plan, SHAPES};
use crate::programs::{Program, Programs, PROGRAMS};

/// Repetitions, of which the fastest and the median count.
const REPETITIONS: usize = 11;

/// Leaves of the large plans.
const LARGE: usize = 512;

/// Lines of the logs that are only compared, on plan A and on a large plan.
const COMPARED: usize = 20_000;
const LARGE_COMPARED: usize = 3_000;

/// What the logs on plan A are answered with, among others; else little was compared.
const ANSWERS: [&str; 12] = [
    "go ",
    "suspend ",
    "stay ",
    "resume 0",
    "resume 8 ",
    "ended ",
    "refused 12",
    "refused 14",
    "refused 15",
    "refused 16",
    "refused 17",
    "refused 18",
];

/// A run at the greatest numbers.
const GREATEST: &str = "release\npoint 0 18446744073709551615\npoint 1 18446744073709551616\n\
    point 1 18446744073709551615\nend 18446744073709551615\n";

/// Plans that are refused: by 2, and by 19.
const REFUSED: [&str; 2] = ["(task 9 0\n)\n", "(task 9 0\n(fun\n(leaf p 0 1)\n)\n)\n"];

/// A line longer than two pieces.
const LONG: usize = 10_000;

/// Plans and logs that are compared, with what is special in them.
fn compared() -> Vec<(String, Plan, String)> {
    let long = log(&plan_a(), COMPARED);
    let cut = long[..long.len() - 1].to_string();
    let line = format!("release\n{}\npoint 0 1\n", "0".repeat(LONG));
    let on_plan_a = |what: &str, log: String| (what.to_string(), plan_a(), log);
    let mut cases = vec![
        on_plan_a("plan A", long),
        on_plan_a("plan A, the last line cut", cut),
        on_plan_a("plan A, a long line", line),
        on_plan_a("plan A, the greatest numbers", GREATEST.to_string()),
        on_plan_a("plan A, no lines", String::new()),
    ];
    let second = plan_a_2();
    let log_of_second = log(&second, COMPARED);
    cases.push((second.shape.to_string(), second, log_of_second));
    for shape in SHAPES {
        let plan = plan(shape, LARGE);
        let log = log(&plan, LARGE_COMPARED);
        cases.push((format!("{} {LARGE}", plan.shape), plan, log));
    }
    cases
}

/// Holds what the reference prints to what the proved program does.
fn compare(tally: &mut Tally, programs: &Programs, what: &str) -> io::Result<Vec<u8>> {
    let proved = programs.printed(Program::Proved)?;
    for program in [Program::Reference, Program::ReferenceOtherwise] {
        let alike = programs.printed(program)? == proved;
        tally.note(alike, || format!("replay of {what}"));
    }
    Ok(proved)
}

fn refused_plans(tally: &mut Tally, programs: &Programs) -> io::Result<()> {
    for plan in REFUSED {
        programs.lay(plan.as_bytes(), b"release\n")?;
        compare(tally, programs, "a refused plan")?;
    }
    Ok(())
}

pub fn agree(tally: &mut Tally, programs: &Programs) -> io::Result<()> {
    let mut all = String::new();
    for (what, plan, log) in compared() {
        programs.lay(&plan.text, log.as_bytes())?;
        all.push_str(&String::from_utf8_lossy(&compare(tally, programs, &what)?));
    }
    for answer in ANSWERS {
        let met = all.lines().any(|line| line.starts_with(answer));
        tally.note(met, || format!("no replay answers {answer}"));
    }
    refused_plans(tally, programs)
}

/// A plan that is measured, and the lines of its logs: for seconds, and for instructions.
struct Measured {
    plan: Plan,
    timed: usize,
    counted: usize,
}

fn measured() -> [Measured; 2] {
    [
        Measured {
            plan: plan_a(),
            timed: 1_000_000,
            counted: 20_000,
        },
        Measured {
            plan: plan(SHAPES[0], LARGE),
            timed: 50_000,
            counted: 2_000,
        },
    ]
}

/// The seconds of a program's repetitions.
struct Seconds {
    fastest: f64,
    median: f64,
}

/// Runs the programs by turns.
fn seconds(programs: &Programs) -> io::Result<[Seconds; PROGRAMS.len()]> {
    let mut runs = PROGRAMS.map(|_| Vec::new());
    for _ in 0..REPETITIONS {
        for (runs, program) in runs.iter_mut().zip(PROGRAMS) {
            runs.push(programs.seconds(program)?);
        }
    }
    Ok(runs.map(|mut runs| {
        runs.sort_by(f64::total_cmp);
        Seconds {
            fastest: runs[0],
            median: runs[REPETITIONS / 2],
        }
    }))
}

/// What the rows are of.
const LEGEND: &str = "
The replay of a log: the proved program beside plain safe Rust that makes the calls of the reference and prints the same bytes. Both read the log
in pieces of 4,096 bytes and print the answers to a piece by one write, to /dev/null. The proved program checks the table once a piece.";

/// When the reference checks the table: both its ways in their order.
const CHECKED: [&str; 2] = ["every call", "once a piece"];

fn print_seconds(programs: &Programs) -> io::Result<()> {
    println!("\nSeconds of a replay (fastest of {REPETITIONS} runs, and the median):\n");
    println!("| plan | leaves | lines | bytes | reference checks | proved, s | reference, s | ratio | proved, median | reference, median | ratio |");
    println!("|---|---|---|---|---|---|---|---|---|---|---|");
    for Measured { plan, timed, .. } in measured() {
        let log = log(&plan, timed);
        programs.lay(&plan.text, log.as_bytes())?;
        let [proved, references @ ..] = seconds(programs)?;
        for (checked, reference) in CHECKED.iter().zip(references) {
            let (shape, leaves, bytes) = (plan.shape, plan.leaves, log.len());
            print!("| {shape} | {leaves} | {timed} | {bytes} | {checked} |");
            let (fastest, median) = (proved.fastest, proved.median);
            for (one, other) in [(fastest, reference.fastest), (median, reference.median)] {
                print!(" {one:.3} | {other:.3} | {:.2} |", one / other);
            }
            println!();
        }
    }
    Ok(())
}

fn print_instructions(programs: &Programs, tunables: &str) -> io::Result<()> {
    println!("\nInstructions of a replay for each line of its log (callgrind):\n");
    println!("| plan | leaves | lines | reference checks | proved, instructions | reference, instructions | ratio |");
    println!("|---|---|---|---|---|---|---|");
    for Measured { plan, counted, .. } in measured() {
        programs.lay(&plan.text, log(&plan, counted).as_bytes())?;
        let mut counts = [0.0; PROGRAMS.len()];
        for (count, program) in counts.iter_mut().zip(PROGRAMS) {
            *count = programs.instructions(program, tunables)? / counted as f64;
        }
        let [proved, references @ ..] = counts;
        for (checked, reference) in CHECKED.iter().zip(references) {
            let (shape, leaves, ratio) = (plan.shape, plan.leaves, proved / reference);
            print!("| {shape} | {leaves} | {counted} | {checked} |");
            println!(" {proved:.0} | {reference:.0} | {ratio:.2} |");
        }
    }
    Ok(())
}

/// Instructions are counted where the tunables for callgrind are given.
pub fn print_tables(programs: &Programs, tunables: Option<&str>) -> io::Result<()> {
    println!("{LEGEND}");
    if let Some(tunables) = tunables {
        print_instructions(programs, tunables)?;
    }
    print_seconds(programs)
}
