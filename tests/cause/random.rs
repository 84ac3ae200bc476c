//! Random logs of random plans, as they are and damaged, on small plans, on those in which
//! choices tie, on large ones and on those at the caps.

use std::collections::BTreeMap;

use logs::random_logs::random_log;
use logs::tested::Tested;
use reference::calls::{Answer, Call, Controller};
use reference::cause::{ask, last_asked};
use reference::composed::Composed;
use reference::damage;
use reference::deep;
use reference::edges;
use reference::edition::Edition;
use reference::gen::{self, Random};
use reference::plan::{self, Plan, MOST_LEAVES};
use reference::replay::call_of;
use reference::ways::{is_told_apart, Ways};

/// How many of edition 1; a third as many of edition 2.
const SMALL: usize = 450;
const TIED: usize = 250;
const LARGE: usize = 80;
/// Logs up to a report of a rarer kind.
const OF_KIND: usize = 400;
/// Logs of each plan at the caps.
const AT_CAPS: usize = 4;

/// How often each kind of way and of decision is to be met, and each refusal.
const OFTEN: usize = 12;

/// What was asked by the last reports of random logs.
#[derive(Default)]
struct Met {
    ways: Ways,
    /// Refusals by their numbers; 0 where a log has no report.
    refused: BTreeMap<u32, usize>,
}

impl Met {
    fn note(&mut self, composed: &Composed, log: &[u8]) {
        let Some(asked) = last_asked(composed, log) else {
            return *self.refused.entry(0).or_default() += 1;
        };
        if let Answer::Refused(number) = asked.answer {
            *self.refused.entry(number).or_default() += 1;
        }
        if let Some(place) = asked.place {
            self.ways.note(composed, &place);
            self.ways.note_decision(composed, &place, asked.answer);
        }
    }

    fn check(&self, tested: &mut Tested, edition: Edition) {
        println!("last reports, {edition}: {}", self.ways);
        println!("  refused, and logs without one: {:?}", self.refused);
        let (least, count) = (edition.share(OFTEN), &mut tested.count);
        let refused = |number| self.refused.get(number).is_some_and(|&met| met >= least);
        let all = [0, 14, 15, 16, 17].iter().all(refused);
        count.holds(all, "each refusal is met often, and no report");
        let met = self.ways.met(least) && self.ways.decided(edition, least);
        count.holds(met, "each way and each decision is met often");
    }
}

#[derive(Clone, Copy, PartialEq, Eq)]
enum Kind {
    /// Another rule would explain it by other leaves.
    ToldApart,
    /// Refused while a release is open.
    Refused,
    Other,
}

/// The reports of a log: their kinds and where they end.
fn reports(composed: &Composed, log: &[u8]) -> Vec<(Kind, usize)> {
    let mut controller = Controller::new(composed);
    let mut found = Vec::new();
    let mut end = 0;
    for line in log.split_inclusive(|&byte| byte == b'\n') {
        end += line.len();
        match call_of(line) {
            Some(Call::Report(number, reading)) => {
                let open = controller.is_running();
                let kind = match ask(&mut controller, number, reading).place {
                    Some(place) if is_told_apart(composed, &place) => Kind::ToldApart,
                    None if open => Kind::Refused,
                    _ => Kind::Other,
                };
                found.push((kind, end));
            }
            Some(call) => drop(controller.call(call)),
            None => {}
        }
    }
    found
}

/// A log up to one of its reports of this kind, or of any; None where it has none.
fn up_to<'a>(
    random: &mut Random,
    composed: &Composed,
    log: &'a [u8],
    kind: Option<Kind>,
) -> Option<&'a [u8]> {
    let mut found = reports(composed, log);
    found.retain(|&(of, _)| kind.is_none_or(|kind| of == kind));
    match found.is_empty() {
        true => None,
        false => Some(&log[..random.pick(&found).1]),
    }
}

/// A log of the plan as it is, up to one of its reports, and damaged.
fn of_plan(tested: &mut Tested, random: &mut Random, met: &mut Met, plan: &Plan) {
    let text = plan::text(plan);
    let composed = Composed::new(plan);
    let length = random.pick(&[60, 300, 1_500]);
    let log = random_log(random, &composed, length);
    for log in [Some(&log[..]), up_to(random, &composed, &log, None)] {
        if let Some(log) = log {
            met.note(&composed, log);
            tested.log("a random log", &text, log);
        }
    }
    match random.chance(80) {
        true => tested.log("a damaged log", &text, &damage::damaged(random, &log)),
        false => tested.log("a damaged plan", &damage::damaged(random, &text), &log),
    };
}

/// A log up to a report of this kind, of the first plan that is drawn and has one.
fn of_kind(tested: &mut Tested, random: &mut Random, met: &mut Met, edition: Edition, kind: Kind) {
    loop {
        let plan = gen::tied_plan(random, edition);
        let composed = Composed::new(&plan);
        let log = random_log(random, &composed, 200);
        if let Some(log) = up_to(random, &composed, &log, Some(kind)) {
            met.note(&composed, log);
            tested.log("a log up to a rare report", &plan::text(&plan), log);
            return;
        }
    }
}

fn of_edition(tested: &mut Tested, edition: Edition) {
    let mut random = Random::new(201);
    let mut met = Met::default();
    let drawn: [(usize, fn(&mut Random, Edition) -> Plan); 3] = [
        (SMALL, gen::small_plan),
        (TIED, gen::tied_plan),
        (LARGE, gen::large_plan),
    ];
    for (count, draw) in drawn {
        for _ in 0..edition.share(count) {
            let plan = draw(&mut random, edition);
            of_plan(tested, &mut random, &mut met, &plan);
        }
    }
    for kind in [Kind::ToldApart, Kind::Refused] {
        for _ in 0..edition.share(OF_KIND) {
            of_kind(tested, &mut random, &mut met, edition, kind);
        }
    }
    for plan in deep::of_edition(edition) {
        for _ in 0..AT_CAPS {
            of_plan(tested, &mut random, &mut met, &plan);
        }
    }
    met.check(tested, edition);
}

/// Plans of most leaves, rounds and totals, refused ones among them.
fn at_edges(tested: &mut Tested) {
    let mut random = Random::new(202);
    for (name, text, _) in edges::largest() {
        let log = match plan::read(&text, MOST_LEAVES) {
            Ok(plan) => random_log(&mut random, &Composed::new(&plan), 100),
            Err(_) => b"release\npoint 0 0\n".to_vec(),
        };
        tested.log(name, &text, &log);
    }
}

pub fn compare_all(tested: &mut Tested) {
    for edition in Edition::BOTH {
        of_edition(tested, edition);
    }
    at_edges(tested);
}
