//! The form of a line: right ones, and those that are off by a byte, a field or a
//! number, each where no release is open and where one is.

use logs::forms::{near_right_ones, OTHERS};
use logs::tested::Tested;
use reference::worked::PLAN_A;

/// A run of plan A with the line before, between and behind its own lines.
fn among_right_ones(line: &[u8]) -> Vec<u8> {
    let parts: [&[u8]; 6] = [
        b"",
        b"release\n",
        b"point 0 0\n",
        b"point 1 9\n",
        b"end 40\n",
        b"release\n",
    ];
    parts.map(|part| [part, line].concat()).concat()
}

fn others(tested: &mut Tested) {
    for other in OTHERS {
        let line = format!("{other}\n").into_bytes();
        let group = format!("among other lines {other:?}");
        tested.log(&group, PLAN_A.as_bytes(), &among_right_ones(&line));
        let group = format!("a last line {other:?}");
        let log = [b"release\npoint 0 0\n", other.as_bytes()].concat();
        tested.log(&group, PLAN_A.as_bytes(), &log);
    }
}

/// All of these lines, one log for each place that the state can be in.
fn everywhere(tested: &mut Tested, group: &str, lines: &[Vec<u8>]) {
    for before in [
        "",
        "release\n",
        "release\npoint 0 8\n",
        "release\npoint 0 0\npoint 1 9\n",
    ] {
        let log = [before.as_bytes(), &lines.concat()].concat();
        tested.log(group, PLAN_A.as_bytes(), &log);
    }
}

fn near(tested: &mut Tested) {
    for (group, lines) in near_right_ones() {
        everywhere(tested, &group, &lines);
    }
}

/// A log whose lines all end in some other way.
fn line_ends(tested: &mut Tested) {
    for end in [
        "\r\n", "\r", "\n\r", "\0", " \n", "\n\n", "\u{2028}", "\u{b}",
    ] {
        let log = "release\npoint 0 0\npoint 1 9\nend 40\n".replace('\n', end);
        let group = format!("lines that end in {end:?}");
        tested.log(&group, PLAN_A.as_bytes(), log.as_bytes());
    }
}

pub fn compare_all(tested: &mut Tested) {
    others(tested);
    near(tested);
    line_ends(tested);
}
