//! A log that is still being written: each answer comes before the next line is
//! there.

use std::fs::File;
use std::io::{self, BufRead, BufReader, Write};
use std::process::{Child, Stdio};
use std::sync::mpsc::{channel, Receiver, RecvTimeoutError};
use std::thread;
use std::time::{Duration, Instant};

use logs::tested::{Tested, INPUT};
use reference::program::packet_pipe;
use reference::worked::PLAN_A;

/// How long an answer may take.
const SOON: Duration = Duration::from_secs(10);

/// A run whose log is still being written.
struct Open {
    child: Child,
    feed: File,
    /// The lines that it prints.
    lines: Receiver<String>,
}

impl Open {
    fn new(tested: &Tested) -> io::Result<Open> {
        let (from, feed) = packet_pipe()?;
        let mut command = tested.command(&[tested.plan.as_os_str(), INPUT.as_ref()]);
        command.stdin(from).stdout(Stdio::piped());
        let mut child = command.spawn()?;
        let output = child.stdout.take().expect("its output is a pipe");
        let (sender, lines) = channel();
        thread::spawn(move || {
            let mut printed = BufReader::new(output).lines().map_while(Result::ok);
            printed.all(|line| sender.send(line).is_ok())
        });
        Ok(Open { child, feed, lines })
    }

    /// Writes a piece of the log and takes the lines wanted next; gives the first
    /// that is not printed soon.
    fn answers<'b>(&mut self, piece: &str, wanted: &[&'b str]) -> Option<&'b str> {
        if self.feed.write_all(piece.as_bytes()).is_err() {
            return Some("its log is closed");
        }
        let printed = |line: &str| {
            self.lines
                .recv_timeout(SOON)
                .is_ok_and(|found| found == line)
        };
        wanted.iter().copied().find(|line| !printed(line))
    }
}

/// The status of a program that ends soon; one that does not is ended.
fn status_of(child: &mut Child) -> Option<i32> {
    let start = Instant::now();
    while start.elapsed() < SOON {
        match child.try_wait() {
            Ok(Some(status)) => return status.code(),
            Ok(None) => thread::sleep(Duration::from_millis(1)),
            Err(_) => break,
        }
    }
    // It is gone already or hangs: nothing else can be done.
    let _ = child.kill().and_then(|()| child.wait());
    None
}

/// Pieces of a log, and what is to be printed before the next one is written.
const DIALOGUE: [(&str, &[&str]); 11] = [
    ("release\n", &["go 49 47 0"]),
    ("release\n", &["refused 12"]),
    ("point 0", &[]),
    (" 0\nend 5\npo", &["go 49 38 0", "refused 17"]),
    ("int 1 29", &[]),
    ("\n", &["suspend 44 -1 0"]),
    ("\n", &["refused 18"]),
    ("end 40\n", &["resume 0", "29 11 40"]),
    ("release", &[]),
    (" ", &[]),
    ("\nend 0\nrelease", &["refused 18", "refused 14"]),
];

/// What is printed for the rest once the log is closed.
const LAST: &str = "refused 18";

pub fn compare_all(tested: &mut Tested) {
    tested.write_plan(PLAN_A.as_bytes());
    let mut open = match Open::new(tested) {
        Ok(open) => open,
        Err(error) => return tested.count.holds(false, &format!("not run: {error}")),
    };
    for (piece, wanted) in DIALOGUE {
        let missing = open.answers(piece, wanted);
        let what = format!("while the log is open, after {piece:?}: missing {missing:?}");
        tested.count.holds(missing.is_none(), &what);
        if missing.is_some() {
            break;
        }
    }
    drop(open.feed);
    let next = || open.lines.recv_timeout(SOON);
    let ended =
        next().is_ok_and(|line| line == LAST) && next() == Err(RecvTimeoutError::Disconnected);
    tested
        .count
        .holds(ended, "the rest is answered once the log is closed");
    let status = status_of(&mut open.child);
    let what = format!("the program ends by itself: {status:?}");
    tested.count.holds(status == Some(0), &what);
}
