//! Composed numbers of plans too large to list, against single runs of them:
//! no run exceeds them, and the dearest run meets them. No decision is final with a
//! point still to come, and the last one of a run is where no point can come next. The
//! plans are of edition 1: none of these numbers knows of U.

use reference::composed::{Composed, Place};
use reference::edition::Edition;
use reference::gen::{self, Random};
use reference::numbers::Numbers;
use reference::plan::{text, Form, Kind, Plan};

use super::tally::Tally;

/// The longest run that is looked at.
const LONG: usize = 4_000;

struct Dearest<'a> {
    plan: &'a Plan,
    leaves: Vec<&'a Form>,
    cost: fn(&Form) -> u64,
}

impl Dearest<'_> {
    fn sum(&self, run: &[usize]) -> u64 {
        run.iter().map(|&leaf| (self.cost)(self.leaves[leaf])).sum()
    }

    /// A run of these forms with the dearer part of every if and all rounds of
    /// every loop; None if it is longer than `LONG`.
    fn run(&self, forms: &[Form]) -> Option<Vec<usize>> {
        let mut run = Vec::new();
        for form in forms {
            run.push(form.leaf);
            match &form.kind {
                Kind::Leaf => {}
                Kind::Call(target) => run.extend(self.run(&self.plan.functions[*target])?),
                Kind::If(then_part, else_part) => {
                    let (by_then, by_else) = (self.run(then_part)?, self.run(else_part)?);
                    let then_dearer = self.sum(&by_then) >= self.sum(&by_else);
                    run.extend(if then_dearer { by_then } else { by_else });
                }
                Kind::Loop(bound, body) => {
                    let round = self.run(body)?;
                    for _ in 0..*bound {
                        run.extend_from_slice(&round);
                        run.push(form.leaf);
                        if run.len() > LONG {
                            return None;
                        }
                    }
                }
            }
            if run.len() > LONG {
                return None;
            }
        }
        Some(run)
    }
}

/// A run that is followed report by report. The remaining time is at least what
/// the run still takes alone, and exactly that on the dearest run; the stretch of each
/// visit is at least what the run takes under load up to its next point, and at most
/// that of its point.
struct Followed<'a> {
    composed: &'a Composed<'a>,
    dearest: bool,
    place: Place,
    /// What the run still takes alone.
    isolated: u64,
    stretch: u64,
    /// What it has taken under load since its last point.
    loaded: u64,
}

impl Followed<'_> {
    fn shown(&self) -> String {
        String::from_utf8_lossy(&text(self.composed.plan())).into_owned()
    }

    fn fits(&self, remaining: u64) -> bool {
        match self.dearest {
            true => remaining == self.isolated,
            false => remaining >= self.isolated,
        }
    }

    /// Moves to a point; false if it cannot come next.
    fn report(&mut self, tally: &mut Tally, leaf: usize) -> bool {
        tally.holds(self.loaded <= self.stretch, || {
            format!("stretch up to {leaf} in {}", self.shown())
        });
        tally.holds(!self.composed.is_final(&self.place), || {
            format!("a final decision before {leaf} in {}", self.shown())
        });
        let next = self.composed.report(&self.place, leaf);
        tally.holds(next.is_some(), || {
            format!("report of {leaf} in {}", self.shown())
        });
        let Some(next) = next else {
            return false;
        };
        self.place = next;
        let remaining = self.composed.remaining(&self.place);
        tally.holds(self.fits(remaining), || {
            let isolated = self.isolated;
            let shown = self.shown();
            format!("remaining {remaining} for {isolated} at {leaf} in {shown}")
        });
        self.stretch = self.composed.stretch_at(&self.place);
        tally.holds(self.stretch <= self.composed.stretch(leaf), || {
            format!("stretch of a visit of {leaf} in {}", self.shown())
        });
        self.loaded = 0;
        true
    }

    fn end(&self, tally: &mut Tally) {
        tally.holds(self.loaded <= self.stretch, || {
            format!("stretch up to the end in {}", self.shown())
        });
        tally.holds(self.composed.can_end(&self.place), || {
            format!("end of {}", self.shown())
        });
        let last = self.composed.next_points(&self.place).is_empty();
        tally.equal(self.composed.is_final(&self.place), last, || {
            format!("whether the last decision is final, {}", self.shown())
        });
    }
}

fn follow(tally: &mut Tally, composed: &Composed, run: &[usize], dearest: bool) {
    let leaves = composed.plan().leaves();
    let mut followed = Followed {
        composed,
        dearest,
        place: composed.release(),
        isolated: run.iter().map(|&leaf| leaves[leaf].1.isolated).sum(),
        stretch: composed.release_stretch(),
        loaded: 0,
    };
    tally.holds(followed.fits(composed.total()), || {
        format!("total of {}", followed.shown())
    });
    for &leaf in run {
        let form = leaves[leaf].1;
        if form.point && !followed.report(tally, leaf) {
            return;
        }
        followed.isolated -= form.isolated;
        followed.loaded += form.loaded;
    }
    followed.end(tally);
}

pub fn check(tally: &mut Tally) {
    let mut random = Random::new(51);
    let (mut dearest_runs, mut random_runs) = (0, 0);
    for _ in 0..400 {
        let shape = gen::large_shape(&mut random);
        let plan = gen::valid_plan(&mut random, shape, Edition::First);
        let composed = Composed::new(&plan);
        let leaves: Vec<&Form> = plan.leaves().into_iter().map(|(_, form)| form).collect();
        let main = &plan.functions[plan.main()];
        let costs: [(fn(&Form) -> u64, u64); 2] = [
            (|form| form.isolated, composed.total()),
            (|form| form.loaded, composed.max_load_total()),
        ];
        for (at, (cost, total)) in costs.into_iter().enumerate() {
            let walker = Dearest {
                plan: &plan,
                leaves: leaves.clone(),
                cost,
            };
            if let Some(run) = walker.run(main) {
                let shown = || String::from_utf8_lossy(&text(&plan)).into_owned();
                tally.equal(walker.sum(&run), total, shown);
                follow(tally, &composed, &run, at == 0);
                dearest_runs += 1;
            }
        }
        if let Some(run) = gen::random_run(&mut random, &plan, LONG / 10) {
            follow(tally, &composed, &run, false);
            random_runs += 1;
        }
    }
    println!("  {dearest_runs} dearest runs, {random_runs} random ones");
    tally.holds(dearest_runs > 100 && random_runs > 100, || {
        format!("{dearest_runs} and {random_runs} runs of large plans")
    });
}
