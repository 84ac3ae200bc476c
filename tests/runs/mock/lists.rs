//! The runs of a plan, as they are or in another order or choice that is planted.

use std::cmp::Ordering;

use reference::ordered_runs;
use reference::plan::Plan;
use reference::runs::{self, Choice, Run};
use reference::short_runs::MOST_VISITS;

use super::planted::{either, planted};

/// The most runs that are listed for another order.
const LISTED: usize = 1_000;

fn leaves(run: &Run) -> Vec<usize> {
    run.iter().map(|visit| visit.leaf).collect()
}

/// By leaf numbers, but where runs choose in these two ways, the first one before the other.
fn by_choice(one: &Run, next: &Run, first: Choice, second: Choice) -> Ordering {
    for (visit, other) in one.iter().zip(next) {
        let by_choice = match (visit.choice, other.choice) {
            (Some(one), Some(next)) if (one, next) == (first, second) => Ordering::Less,
            (Some(one), Some(next)) if (one, next) == (second, first) => Ordering::Greater,
            _ => Ordering::Equal,
        };
        let order = visit.leaf.cmp(&other.leaf).then(by_choice);
        if order.is_ne() {
            return order;
        }
    }
    one.len().cmp(&next.len())
}

/// By leaf numbers, but a run that begins another behind it.
fn prefix_behind(one: &[usize], next: &[usize]) -> Ordering {
    let alike = one.len().min(next.len());
    one[..alike]
        .cmp(&next[..alike])
        .then(next.len().cmp(&one.len()))
}

/// Each leaf number behind a space, as text.
fn text(leaves: &[usize]) -> String {
    leaves.iter().map(|leaf| format!(" {leaf}")).collect()
}

/// The short runs of a list.
fn short(mut all: Vec<Run>) -> Vec<Run> {
    all.retain(|run| run.len() <= MOST_VISITS);
    all
}

/// The short runs sorted by what they choose, each sequence of visits once.
fn chosen(all: Vec<Run>, first: Choice, second: Choice) -> Vec<Vec<usize>> {
    let mut all = short(all);
    all.sort_by(|one, next| by_choice(one, next, first, second));
    let mut lists: Vec<Vec<usize>> = all.iter().map(leaves).collect();
    lists.dedup();
    lists
}

/// The short runs by their leaves, in order, each as often as it is chosen.
fn ordered(all: Vec<Run>) -> Vec<Vec<usize>> {
    let mut lists: Vec<Vec<usize>> = short(all).iter().map(leaves).collect();
    lists.sort();
    lists
}

/// The short runs in another order, each sequence of visits once.
fn sorted(all: Vec<Run>, order: impl Fn(&Vec<usize>, &Vec<usize>) -> Ordering) -> Vec<Vec<usize>> {
    let mut lists = ordered(all);
    lists.dedup();
    lists.sort_by(order);
    lists
}

/// Longer runs cut where the longest short ones end.
fn cut(all: Vec<Run>) -> Vec<Vec<usize>> {
    let mut lists: Vec<Vec<usize>> = all.iter().map(leaves).collect();
    lists
        .iter_mut()
        .for_each(|leaves| leaves.truncate(MOST_VISITS));
    lists.sort();
    lists.dedup();
    lists
}

/// What is made of all runs of a plan.
type Listing = fn(Vec<Run>) -> Vec<Vec<usize>>;

const OTHERS: [(&str, Listing); 9] = [
    ("then-first", |all| chosen(all, Choice::Then, Choice::Else)),
    ("else-first", |all| chosen(all, Choice::Else, Choice::Then)),
    ("leaving-first", |all| {
        chosen(all, Choice::Leave, Choice::Round)
    }),
    ("rounds-first", |all| {
        chosen(all, Choice::Round, Choice::Leave)
    }),
    ("twice-by-choices", ordered),
    ("as-text", |all| {
        sorted(all, |one, next| text(one).cmp(&text(next)))
    }),
    ("prefix-behind", |all| {
        sorted(all, |one, next| prefix_behind(one, next))
    }),
    ("short-before-long", |all| {
        sorted(all, |one, next| one.len().cmp(&next.len()))
    }),
    ("longer-runs-cut", cut),
];

/// How many runs that are too long are tried before the rest is given up.
const DEAD: usize = 10_000;

/// The runs as they are found where branches are searched that cannot end in time.
fn with_dead_branches(plan: &Plan, mut take: impl FnMut(&[usize]) -> bool) {
    let mut dead = 0;
    ordered_runs::each(plan, 2 * MOST_VISITS, |leaves| {
        if leaves.len() <= MOST_VISITS {
            return take(leaves);
        }
        dead += 1;
        dead < DEAD
    });
}

/// Hands on the runs of a plan until the next one is not wanted.
pub fn each(plan: &Plan, mut take: impl FnMut(&[usize]) -> bool) {
    if planted("dead-branches") {
        return with_dead_branches(plan, take);
    }
    let mut others = OTHERS.into_iter();
    let other = others.find(|(name, _)| planted(name));
    let listed = other.and_then(|(_, listing)| Some(listing(runs::of_plan(plan, LISTED)?)));
    if let Some(lists) = listed {
        lists.iter().all(|leaves| take(leaves));
        return;
    }
    let most = either("most-63", 63, either("most-65", 65, MOST_VISITS));
    ordered_runs::each(plan, most, take);
}
