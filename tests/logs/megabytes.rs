//! Logs of a megabyte: of runs, of words, of one line and of many.

use reference::composed::Composed;
use reference::gen::Random;
use reference::plan::{self, MOST_LEAVES};
use reference::worked::{PLAN_A, PLAN_B};

use super::random_logs::random_log;
use super::tested::Tested;

const MEGABYTE: usize = 1 << 20;
const RUN: &[u8] = b"release\npoint 0 0\npoint 1 9\nend 40\n";

/// A run that no log has before its end.
const LAST: &[u8] = b"release\npoint 0 3\npoint 1 12\npoint 1 29\nend 40\n";

/// Bytes of a log's lines in any order.
fn scattered(random: &mut Random) -> Vec<u8> {
    let words: [&[u8]; 12] = [
        b"release", b"point", b"end", b" ", b" ", b"0", b"1", b"9", b"\n", b"\n", b"\n", b"x",
    ];
    let mut log = Vec::new();
    while log.len() < MEGABYTE {
        log.extend_from_slice(random.pick(&words));
    }
    log
}

pub fn compare_all(tested: &mut Tested) {
    let mut random = Random::new(102);
    for text in [PLAN_A, PLAN_B] {
        let plan = plan::read(text.as_bytes(), MOST_LEAVES).expect("an accepted plan");
        let log = random_log(&mut random, &Composed::new(&plan), MEGABYTE);
        tested.log("a megabyte of runs", text.as_bytes(), &log);
    }
    let one_line = vec![b'0'; MEGABYTE];
    let logs = [
        ("a megabyte of words", scattered(&mut random)),
        ("a megabyte without a line feed", one_line.clone()),
        ("a line of a megabyte", [RUN, &one_line, b"\n"].concat()),
        ("many blank lines", vec![b'\n'; MEGABYTE / 4]),
        (
            "the same run again and again",
            RUN.repeat(MEGABYTE / RUN.len()),
        ),
    ];
    for (group, log) in logs {
        tested.log(group, PLAN_A.as_bytes(), &log);
        let log = [&log, LAST].concat();
        let group = format!("{group}, and a run behind it");
        tested.log(&group, PLAN_A.as_bytes(), &log);
    }
}
