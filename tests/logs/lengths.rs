//! A line of any length is one line, wherever the pieces that are read end; and so
//! are lines at the end of a log of any length.

use reference::program::PIECE;
use reference::worked::PLAN_A;

use super::tested::Tested;

/// Lengths around those of buffers, among them 47 of the longest right line.
const LENGTHS: [usize; 35] = [
    30, 31, 32, 33, 46, 47, 48, 49, 50, 62, 63, 64, 65, 66, 127, 128, 129, 255, 256, 257, 1_023,
    1_024, 1_025, 4_094, 4_095, 4_096, 4_097, 8_191, 8_192, 8_193, 65_535, 65_536, 65_537, 99_999,
    100_000,
];

/// A line of this length, without its line feed, that begins and ends like this.
fn line(length: usize, first: &str, fill: u8, last: &str) -> Vec<u8> {
    let room = length.saturating_sub(first.len() + last.len());
    let mut line = [first.as_bytes(), &vec![fill; room], last.as_bytes()].concat();
    line.truncate(length);
    line
}

/// Lines of this length, some of which would be right if they were cut somewhere.
fn lines(length: usize) -> Vec<Vec<u8>> {
    [
        ("", b'x', ""),
        ("", b'x', "release"),
        ("", b' ', "point 1 9"),
        ("", 0, "point 1 9"),
        ("release", b' ', ""),
        ("release", 0, ""),
        ("point 1 9", b' ', ""),
        ("point 1 9", b'\r', ""),
        ("point 1 ", b'0', "9"),
        ("point 1 ", b'9', ""),
        ("point ", b'9', " 9"),
        ("end 4", b'0', ""),
        ("end ", b'0', "40"),
        ("end 40", b'x', "end 40"),
    ]
    .map(|(first, fill, last)| line(length, first, fill, last))
    .into()
}

/// The lines of a run of plan A over and over, these lines among them.
fn mixed(lines: &[Vec<u8>]) -> Vec<u8> {
    let own = ["release", "point 0 0", "point 1 9", "point 1 33", "end 57"];
    let own = own.iter().cycle().map(|line| line.as_bytes());
    let pairs = lines.iter().zip(own);
    let pairs = pairs.map(|(line, own)| [line, &b"\n"[..], own, b"\n"].concat());
    pairs.collect::<Vec<_>>().concat()
}

fn long_lines(tested: &mut Tested) {
    for length in (1..30).chain(LENGTHS) {
        let all = lines(length);
        let group = format!("lines of {length} bytes");
        tested.log(&group, PLAN_A.as_bytes(), &mixed(&all));
        let log = [&mixed(&all[..2]), &all[1][..]].concat();
        let group = format!("a last line of {length} bytes");
        tested.log(&group, PLAN_A.as_bytes(), &log);
    }
}

/// A run up to a report, behind which another right line would be a report too.
pub const BEFORE: &str = "release\npoint 0 0\npoint 1 9\n";

/// What would be a report if the line were cut in two: behind each length, and behind the
/// longest right line.
fn hidden_reports(tested: &mut Tested) {
    for length in LENGTHS {
        let hidden = |fill| [&vec![fill; length][..], b"point 1 9\n"].concat();
        let lines = [b'x', b' ', b'0', 0].map(hidden).concat();
        let log = [BEFORE.as_bytes(), &lines].concat();
        let group = format!("reports behind {length} bytes of their line");
        tested.log(&group, PLAN_A.as_bytes(), &log);
    }
    let most = u64::MAX;
    for more in [" ", "x", "0", " 0"] {
        let log = format!("{BEFORE}point {most} {most}{more}\n");
        let group = format!("the longest right line with {more:?} behind it");
        tested.log(&group, PLAN_A.as_bytes(), log.as_bytes());
    }
}

/// The longest right lines with a byte more, in front, behind and between.
fn longest_right(tested: &mut Tested) {
    let most = u64::MAX;
    let longest = format!("point {most} {most}");
    let mut log = format!("{longest}\nrelease\npoint 0 0\n{longest}\n");
    for more in ["0", "9", " ", "x", "\0", "\r", " 0", "99999999999999999"] {
        log += &format!("{longest}{more}\n{more}{longest}\npoint {most}{more} {most}\n");
        log += &format!("point 1 {most}{more}\nend {most}{more}\n");
    }
    log += &format!("point 1 {most}\nend {most}\n{longest}\n");
    tested.log("the longest right lines", PLAN_A.as_bytes(), log.as_bytes());
}

const RUN: &str = "release\npoint 0 0\npoint 1 28\nend 40\n";

/// A run whose lines are cut everywhere by the end of a piece.
fn across_pieces(tested: &mut Tested) {
    for before in 0..=RUN.len() + 1 {
        let padding = line(PIECE - before, "", b'x', "\n");
        let log = [&padding, RUN.as_bytes()].concat();
        let group = format!("{before} bytes before the end of a piece");
        tested.log(&group, PLAN_A.as_bytes(), &log);
    }
}

/// Logs of a piece or several, a byte more or less, with and without a last line
/// feed.
fn whole_pieces(tested: &mut Tested) {
    for pieces in [1, 2, 16] {
        for length in [pieces * PIECE - 1, pieces * PIECE, pieces * PIECE + 1] {
            for end in [RUN, "release\nend 0", "\n", "\n\n", "x", "point 0 0"] {
                let padding = line(length - RUN.len() - end.len(), "", b'x', "\n");
                let log = [&padding, RUN.as_bytes(), end.as_bytes()].concat();
                let group = format!("{length} bytes that end in {end:?}");
                tested.log(&group, PLAN_A.as_bytes(), &log);
            }
        }
    }
}

pub fn compare_all(tested: &mut Tested) {
    long_lines(tested);
    hidden_reports(tested);
    longest_right(tested);
    across_pieces(tested);
    whole_pieces(tested);
}
