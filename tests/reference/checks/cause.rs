//! What held the others back (02, L9): the worked logs; the way of every report of small
//! plans, picked from the list of all runs and followed form by form; and what is printed in
//! random histories, from which the margin is worked out again.

use reference::calls::{Answer, Controller, LEAST_MARGIN};
use reference::cause::{explained, listed_leaves, printed, Causes};
use reference::cause_by_runs::counted;
use reference::composed::{Composed, Place};
use reference::edition::Edition;
use reference::gen::{self, Random};
use reference::listed::Listed;
use reference::numbers::Numbers;
use reference::plan::{text, Plan};
use reference::ways::Ways;
use reference::worked_causes::{most_visits, CASES};

use super::replay;
use super::small::{each_drawn, longer};
use super::tally::Tally;

/// Plans whose histories are all compared: those in which choices often tie, and others.
const TIED: usize = 8_000;
const OTHERS: usize = 1_000;

/// Random histories of small plans of edition 1, and of large ones.
const SMALL: usize = 3_000;
const LARGE: usize = 200;
/// Lines of each.
const LINES: usize = 12;

/// How often each kind is to be met.
const OFTEN: usize = 100;

/// The worked logs, and those of plans that are made.
fn worked(tally: &mut Tally) {
    replay::worked(tally, CASES, printed, |composed, log| {
        explained(composed, log)
    });
    for case in most_visits() {
        let found = printed(case.plan.as_bytes(), case.log.as_bytes());
        tally.equal(found, case.printed, || case.name.to_string());
    }
}

fn shown(plan: &Plan, history: &[usize]) -> String {
    format!("{history:?} in {}", String::from_utf8_lossy(&text(plan)))
}

/// M times count, summed over the leaves.
fn sum(plan: &Plan, visits: &[u128]) -> u128 {
    let leaves = plan.leaves().into_iter();
    let products = leaves.map(|(_, form)| u128::from(form.loaded) * visits[form.leaf]);
    products.sum()
}

/// The way of a report, both ways: its visits are those of one of the listed continuations,
/// and M times count adds up to the stretch.
fn one_report(
    tally: &mut Tally,
    met: &mut Ways,
    (listed, composed): (&Listed, &Composed),
    history: &Vec<usize>,
    place: &Place,
) {
    let plan = listed.plan();
    let visits = composed.visits(place);
    tally.equal(&visits, &listed.visits(history), || shown(plan, history));
    let continuations = listed.continuations(history);
    let mut counts = continuations.iter().map(|visits| counted(listed, visits));
    tally.holds(counts.any(|counts| counts == visits), || {
        format!("no run makes these visits: {}", shown(plan, history))
    });
    let stretch = u128::from(listed.stretch_at(history));
    tally.equal(sum(plan, &visits), stretch, || {
        format!("M times count, {}", shown(plan, history))
    });
    met.note(composed, place);
}

/// This history and all that begin with it.
fn reports(
    tally: &mut Tally,
    met: &mut Ways,
    both: (&Listed, &Composed),
    history: &Vec<usize>,
    place: &Place,
) {
    if !history.is_empty() {
        one_report(tally, met, both, history, place);
    }
    for (history, place) in longer(both.0, both.1, history, place) {
        reports(tally, met, both, &history, &place);
    }
}

fn all_reports(tally: &mut Tally) {
    let mut met = Ways::default();
    let mut of_plan = |listed: &Listed| {
        let composed = Composed::new(listed.plan());
        let (history, place) = (listed.release(), composed.release());
        reports(tally, &mut met, (listed, &composed), &history, &place);
    };
    each_drawn(37, TIED, gen::tied_plan, &mut of_plan);
    each_drawn(38, OTHERS, gen::small_or_calling_plan, &mut of_plan);
    println!("  {met}");
    tally.holds(met.met(OFTEN), || {
        "each kind of way is met often".to_string()
    });
}

/// What is printed for an accepted report, read again.
struct Read {
    leaves: Vec<(usize, u128)>,
    last: [i128; 4],
}

/// None where it is not of that form.
fn read(printed: &str) -> Option<Read> {
    let numbers = |line: &str| -> Option<Vec<i128>> {
        line.split(' ').map(|field| field.parse().ok()).collect()
    };
    let lines: Option<Vec<Vec<i128>>> = printed.lines().map(numbers).collect();
    let mut lines = lines?;
    let last = lines.pop()?.try_into().ok()?;
    let leaf = |line: Vec<i128>| match line[..] {
        [leaf, count] => Some((leaf as usize, count as u128)),
        _ => None,
    };
    let leaves: Option<Vec<_>> = lines.into_iter().map(leaf).collect();
    Some(Read {
        leaves: leaves?,
        last,
    })
}

/// Whether some run with this history makes the visits that are listed.
fn is_made(listed: &Listed, history: &Vec<usize>, leaves: &[(usize, u128)]) -> bool {
    let continuations = listed.continuations(history);
    let lists = continuations.iter().map(|visits| counted(listed, visits));
    let mut lists = lists.map(|counts| listed_leaves(listed, &counts));
    lists.any(|list| list == leaves)
}

/// Whether these leaves are those of a run that is at this place; None where runs are too
/// many to list.
type IsMade<N> = Option<fn(&N, &<N as Numbers>::Place, &[(usize, u128)]) -> bool>;

/// What is printed for this log, whose last line is a report with this answer: the leaves
/// are those of a run and have the stretch, and what the last line leaves is the margin.
fn one_answer<N: Causes>(
    tally: &mut Tally,
    met: &mut Ways,
    (numbers, is_made): (&N, IsMade<N>),
    place: &N::Place,
    log: &str,
    answer: Answer,
) {
    let plan = numbers.plan();
    let about = || format!("{log:?} on {}", String::from_utf8_lossy(&text(plan)));
    let printed = explained(numbers, log.as_bytes());
    let Answer::Decision { margin, .. } = answer else {
        return tally.equal(printed, answer.line() + "\n", about);
    };
    let Some(Read { leaves, last }) = read(&printed) else {
        return tally.holds(false, about);
    };
    if let Some(is_made) = is_made {
        tally.holds(is_made(numbers, place, &leaves), about);
    }
    let mut visits = vec![0; plan.leaves().len()];
    for &(leaf, count) in &leaves {
        visits[leaf] = count;
    }
    let stretch = sum(plan, &visits);
    tally.equal(stretch, numbers.stretch_at(place).into(), about);
    tally.holds(leaves.is_sorted_by(|one, next| one.0 < next.0), about);
    let left = last[0] - last[1] - last[2] - last[3] - stretch as i128;
    tally.equal(left.max(LEAST_MARGIN.into()), margin.into(), about);
    met.note_decision(numbers, place, answer);
}

/// Runs of a plan, with readings where decisions turn, asked for at each report.
fn histories<N: Causes>(
    tally: &mut Tally,
    random: &mut Random,
    met: &mut Ways,
    (numbers, is_made): (&N, IsMade<N>),
) {
    let mut controller = Controller::new(numbers);
    let mut log = String::new();
    for _ in 0..LINES {
        let next = controller.place().map(|place| numbers.next_points(place));
        let next: Vec<usize> = next.unwrap_or_default().into_iter().collect();
        if next.is_empty() {
            controller = Controller::new(numbers);
            controller.release();
            log = "release\n".to_string();
            continue;
        }
        let point = random.pick(&next) as u64;
        let last = controller.last_reading();
        let turning = controller.turning(point).unwrap_or(0);
        let near = random.beside(turning).max(last);
        let huge = (1 << 62) + random.below(1 << 10);
        let later = random.pick(&[near, near, near, last, last + 1, huge.max(last)]);
        // A reading before the last one is refused now and then.
        let reading = random.pick(&[later, later, later, last.saturating_sub(1)]);
        log += &format!("point {point} {reading}\n");
        let answer = controller.report(point, reading);
        if let Some(place) = controller.place() {
            one_answer(tally, met, (numbers, is_made), place, &log, answer);
        }
    }
}

fn margins(tally: &mut Tally, edition: Edition) {
    let mut random = Random::new(39);
    let mut met = Ways::default();
    for round in 0..edition.share(SMALL) {
        let plan = match round % 2 {
            0 => gen::small_plan(&mut random, edition),
            _ => gen::tied_plan(&mut random, edition),
        };
        if let Some(listed) = Listed::new(&plan, 200) {
            histories(tally, &mut random, &mut met, (&listed, Some(is_made)));
        }
    }
    for _ in 0..edition.share(LARGE) {
        let plan = gen::large_plan(&mut random, edition);
        let composed = Composed::new(&plan);
        histories(tally, &mut random, &mut met, (&composed, None));
    }
    println!("  {edition}: {met}");
    tally.holds(met.decided(edition, OFTEN), || {
        format!("each decision of {edition} and the floor are met often")
    });
}

pub fn check(tally: &mut Tally) {
    worked(tally);
    all_reports(tally);
    for edition in Edition::BOTH {
        margins(tally, edition);
    }
}
