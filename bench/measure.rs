//! Time and instructions of a call.

use std::hint::black_box;
use std::time::Instant;

use crate::jobs::{Job, Lent};
use crate::memory::State;
use crate::sides::{Side, PROVED, REFERENCE};

/// Calls between two looks at the clock, as many as take so many nanoseconds. Each moves a state of its own, made ready before.
const MOST_GROUP: u128 = 16;
const GROUP_TIME: u128 = 20_000;

/// Repetitions, of which the fastest counts, and the nanoseconds that each takes at least: short ones, so that some are not interrupted.
const REPETITIONS: usize = 301;
const LEAST: u128 = 40_000;

/// Calls counted under callgrind. All are alike.
pub const COUNTED: u64 = 4;

/// The cost of a call on both sides.
#[derive(Clone, Copy)]
pub struct Cost {
    pub proved: f64,
    pub reference: f64,
}

fn group(job: &Job, side: &Side, lent: &mut Lent, states: &mut [State]) -> u128 {
    states.fill(job.before);
    let start = Instant::now();
    for state in states {
        black_box(job.run(side, lent, state));
    }
    start.elapsed().as_nanos()
}

/// Nanoseconds of a call: the mean of one repetition.
fn mean(job: &Job, side: &Side, lent: &mut Lent, states: &mut [State]) -> f64 {
    let (mut spent, mut groups) = (0, 0);
    while spent < LEAST {
        spent += group(job, side, lent, states);
        groups += 1;
    }
    spent as f64 / (groups * states.len()) as f64
}

/// Both sides by turns.
pub fn time(job: &Job) -> Cost {
    let mut lent = job.lent();
    let first = group(job, &REFERENCE, &mut lent, &mut [job.before]).max(1);
    let mut states = vec![job.before; (GROUP_TIME / first).clamp(1, MOST_GROUP) as usize];
    let mut fastest = Cost {
        proved: f64::INFINITY,
        reference: f64::INFINITY,
    };
    for _ in 0..REPETITIONS {
        let proved = mean(job, &PROVED, &mut lent, &mut states);
        let reference = mean(job, &REFERENCE, &mut lent, &mut states);
        fastest.proved = fastest.proved.min(proved);
        fastest.reference = fastest.reference.min(reference);
    }
    fastest
}

/// Callgrind writes its count down and begins anew where this is called.
#[no_mangle]
#[inline(never)]
fn bench_mark() {
    black_box(());
}

/// For callgrind: a first count to be left out, then for each job one for the proved side and one for the reference.
pub fn count(jobs: &[Job]) {
    for job in jobs {
        job.run(&PROVED, &mut job.lent(), &mut job.before.clone());
        job.run(&REFERENCE, &mut job.lent(), &mut job.before.clone());
    }
    bench_mark();
    for job in jobs {
        for side in [&PROVED, &REFERENCE] {
            for _ in 0..COUNTED {
                black_box(job.run(side, &mut job.lent(), &mut job.before.clone()));
            }
            bench_mark();
        }
    }
}

/// What callgrind counted, one number a line, as `count` has it.
pub fn counted(counts: &str, jobs: usize) -> Option<Vec<Cost>> {
    let numbers: Option<Vec<u64>> = counts
        .lines()
        .map(|line| line.trim().parse().ok())
        .collect();
    let numbers = numbers?;
    let counts = numbers.get(1..=2 * jobs)?;
    let per_call = |sum: u64| sum as f64 / COUNTED as f64;
    let costs = counts.chunks_exact(2).map(|pair| Cost {
        proved: per_call(pair[0]),
        reference: per_call(pair[1]),
    });
    Some(costs.collect())
}
