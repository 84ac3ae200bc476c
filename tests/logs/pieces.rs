//! Log and plan in pieces as reads give them, cut anywhere and of every size.

use std::io::{self, Read, Write};

use reference::composed::Composed;
use reference::edition::editions;
use reference::gen::{self, Random};
use reference::plan;
use reference::program::{packet_pipe, pieces_of, run_on_pieces, PIECE};
use reference::worked::PLAN_A;

use super::random_logs::random_log;
use super::tested::{Tested, Wanted, INPUT};

/// A log with answers of many kinds; its last line lacks the line feed.
const LOG: &str = "point 0 0\nrelease\npoint 0 0\npoint 1 29\n\npoint 1 40\nend 60\nrelease\n\
    point 0 5\n x\npoint 1 12\nend 3\nend 20\nrelease";

/// How many bytes each read of a packet pipe gives after these writes.
fn reads(writes: &[&[u8]]) -> io::Result<Vec<usize>> {
    let (mut from, mut to) = packet_pipe()?;
    for bytes in writes {
        to.write_all(bytes)?;
    }
    drop(to);
    let mut lengths = Vec::new();
    let mut room = [0; 2 * PIECE];
    loop {
        match from.read(&mut room)? {
            0 => return Ok(lengths),
            length => lengths.push(length),
        }
    }
}

/// Whether pieces can be handed over one by one at all.
fn packets(tested: &mut Tested) {
    let long = [b'x'; PIECE + 1];
    let found = reads(&[b"abc", b"de", &long, &long[..PIECE], b"\n"]).ok();
    let wanted = Some(vec![3, 2, PIECE, 1, PIECE, 1]);
    let what = format!("each write is one read: {found:?}");
    tested.count.holds(found == wanted, &what);
}

fn two_pieces(tested: &mut Tested) {
    let log = LOG.as_bytes();
    for at in 1..log.len() {
        let (first, second) = log.split_at(at);
        let pieces = vec![first.to_vec(), second.to_vec()];
        let group = format!("a log in pieces of {at} and {} bytes", second.len());
        tested.pieces(&group, PLAN_A.as_bytes(), pieces);
    }
}

/// Some logs of several thousand bytes: of runs, of long lines, and of lines that
/// end where a piece may end.
fn logs(random: &mut Random) -> Vec<Vec<u8>> {
    let plan = plan::read(PLAN_A.as_bytes(), 512).expect("an accepted plan");
    let runs = random_log(random, &Composed::new(&plan), 9_000);
    let long = |length: usize| [vec![b'9'; length], b"\nrelease\nend 9\n".to_vec()].concat();
    let long_lines = [40, 60, 90, 4_090, 4_096, 5_000].map(long).concat();
    let blank = [vec![b'\n'; PIECE], LOG.as_bytes().to_vec()].concat();
    vec![
        runs.clone(),
        runs[..runs.len() - 1].to_vec(),
        long_lines,
        blank,
    ]
}

fn equal_pieces(tested: &mut Tested) {
    let mut random = Random::new(102);
    for log in logs(&mut random) {
        for size in [1, 2, 3, 7, 47, 48, 64, 4_095, 4_096, 4_097] {
            let group = format!("a log in pieces of {size} bytes");
            tested.pieces(&group, PLAN_A.as_bytes(), pieces_of(&log, size));
        }
    }
}

/// Pieces of random lengths, most of them short or at the most.
fn scattered(random: &mut Random, mut log: &[u8]) -> Vec<Vec<u8>> {
    let mut pieces = Vec::new();
    while !log.is_empty() {
        let any = 1 + random.index(PIECE);
        let few = 1 + random.index(20);
        let size = random.pick(&[any, few, few, few, PIECE - 1, PIECE]);
        let (piece, rest) = log.split_at(size.min(log.len()));
        pieces.push(piece.to_vec());
        log = rest;
    }
    pieces
}

const RANDOM_LOGS: usize = 400;

fn random_pieces(tested: &mut Tested) {
    let mut random = Random::new(103);
    for edition in editions(RANDOM_LOGS) {
        let plan = gen::small_plan(&mut random, edition);
        let log = random_log(&mut random, &Composed::new(&plan), 3_000);
        let pieces = scattered(&mut random, &log);
        tested.pieces("a log in random pieces", &plan::text(&plan), pieces);
    }
}

/// The plan comes in pieces too where it is no file.
fn plan_in_pieces(tested: &mut Tested) {
    tested.write_log(LOG.as_bytes());
    let mut longest = PLAN_A.as_bytes().to_vec();
    longest.resize(plan::MOST_BYTES + 1, b'\n');
    let plans = [PLAN_A.as_bytes(), &longest[..longest.len() - 1], &longest];
    for (plan, sizes) in plans
        .iter()
        .zip([[1, 7, 50], [4_095, 4_096, 4_097], [9, 4_096, 4_097]])
    {
        for size in sizes {
            let command = tested.command(&[INPUT.as_ref(), tested.log.as_os_str()]);
            let found = run_on_pieces(command, pieces_of(plan, size));
            let output = (tested.printed)(plan, LOG.as_bytes());
            let group = format!("a plan in pieces of {size} bytes");
            tested.note(&group, found, Wanted::quiet(&output), &[plan]);
        }
    }
}

pub fn compare_all(tested: &mut Tested) {
    packets(tested);
    two_pieces(tested);
    equal_pieces(tested);
    random_pieces(tested);
    plan_in_pieces(tested);
}
