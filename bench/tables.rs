//! The tables that are printed.

use crate::jobs::{Job, NAMES};
use crate::measure::Cost;
use crate::plans::SHAPES;

/// Smaller plans say little of growth.
const LEAST_LEAVES: usize = 16;

/// What the rows are of.
const LEGEND: &str = "
The reference is plain safe Rust that makes the same checks on the same memory. Shallow plans have points, silent leaves, ifs and calls one after
the other; deep ones have loops in one another, from 64 leaves on down to level 32, and the other leaves spread over the levels; silent ones have
one point, in the middle, so that a release looks through all leaves before it, and its report, which is final, through all behind it; returning ones
are the shallow ones in edition 2, where the report lets the suspended others come back. Read makes a table of the text; release begins from a fresh
state; report is that of the farthest point at the highest level; end comes where the run can end.";

pub fn print_legend() {
    println!("{LEGEND}");
}

pub fn print_costs(title: &str, unit: &str, jobs: &[Job], costs: &[Cost]) {
    println!("\n{title}\n");
    println!("| call | shape | leaves | proved, {unit} | reference, {unit} | ratio |");
    println!("|---|---|---|---|---|---|");
    for name in NAMES {
        for (job, cost) in jobs
            .iter()
            .zip(costs)
            .filter(|(job, _)| job.call.name() == name)
        {
            let (shape, leaves) = (job.plan.shape, job.plan.leaves);
            let Cost { proved, reference } = cost;
            let ratio = proved / reference;
            println!("| {name} | {shape} | {leaves} | {proved:.0} | {reference:.0} | {ratio:.2} |");
        }
    }
}

/// The slope of the logarithm of the cost over that of the leaves, by least squares.
fn exponent(points: &[(f64, f64)]) -> f64 {
    let count = points.len() as f64;
    let logs: Vec<(f64, f64)> = points.iter().map(|(x, y)| (x.ln(), y.ln())).collect();
    let mean_x = logs.iter().map(|(x, _)| x).sum::<f64>() / count;
    let mean_y = logs.iter().map(|(_, y)| y).sum::<f64>() / count;
    let above: f64 = logs.iter().map(|(x, y)| (x - mean_x) * (y - mean_y)).sum();
    let below: f64 = logs.iter().map(|(x, _)| (x - mean_x).powi(2)).sum();
    above / below
}

pub fn print_exponents(unit: &str, jobs: &[Job], costs: &[Cost]) {
    println!("\nGrowth with leaves: the exponent fitted to {unit} of plans of 16 to 512 leaves; 1 is linear.\n");
    println!("| call | shape | proved | reference |");
    println!("|---|---|---|---|");
    for name in NAMES {
        for (_, shape) in SHAPES {
            let fit = |side: fn(&Cost) -> f64| {
                let wanted = |job: &Job| {
                    let plan = job.plan;
                    job.call.name() == name && plan.shape == shape && plan.leaves >= LEAST_LEAVES
                };
                let rows = jobs.iter().zip(costs).filter(|(job, _)| wanted(job));
                let points: Vec<(f64, f64)> = rows
                    .map(|(job, cost)| (job.plan.leaves as f64, side(cost)))
                    .collect();
                exponent(&points)
            };
            let (proved, reference) = (fit(|cost| cost.proved), fit(|cost| cost.reference));
            println!("| {name} | {shape} | {proved:.2} | {reference:.2} |");
        }
    }
}
