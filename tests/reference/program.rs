//! Running a built program: what it is handed, what it writes and how it ends.

use std::fs::File;
use std::io::{self, Read, Write};
use std::os::fd::{FromRawFd, OwnedFd};
use std::process::{Command, Stdio};
use std::sync::mpsc;
use std::thread;
use std::time::Duration;

use super::count::Count;

/// A program that is not done after this time is ended, and its run has failed.
pub const PATIENCE: Duration = Duration::from_secs(30);

/// The longest piece that is read at once.
pub const PIECE: usize = 4_096;

/// Flags of Linux on x86-64.
const O_DIRECT: i32 = 0o40_000;
const O_CLOEXEC: i32 = 0o2_000_000;

extern "C" {
    fn pipe2(ends: *mut i32, flags: i32) -> i32;
}

/// What a program wrote, and how it ended.
#[derive(Debug, PartialEq, Eq)]
pub struct Ended {
    pub output: Vec<u8>,
    pub errors: Vec<u8>,
    /// None where a signal ended it.
    pub status: Option<i32>,
}

/// The ends of a pipe in packet mode: for reading and for writing. What one write
/// of at most `PIECE` bytes puts in, one read takes out; what it has no room for is
/// lost. A longer write counts as several.
pub fn packet_pipe() -> io::Result<(File, File)> {
    let mut ends = [0; 2];
    // SAFETY: `ends` has room for the two descriptors that the call writes.
    if unsafe { pipe2(ends.as_mut_ptr(), O_DIRECT | O_CLOEXEC) } != 0 {
        return Err(io::Error::last_os_error());
    }
    // SAFETY: the call has just opened both, and nothing else owns them.
    let [from, to] = ends.map(|end| File::from(unsafe { OwnedFd::from_raw_fd(end) }));
    Ok((from, to))
}

/// Runs a program that is handed nothing.
pub fn run(command: Command) -> io::Result<Ended> {
    run_fed(command, Stdio::null(), io::sink(), Vec::new())
}

/// Runs a program that is handed a text through a pipe, as fast as it reads.
pub fn run_on(command: Command, text: &[u8]) -> io::Result<Ended> {
    let (from, to) = io::pipe()?;
    run_fed(command, from.into(), to, vec![text.to_vec()])
}

/// Runs a program that is handed these pieces, each by one read.
pub fn run_on_pieces(command: Command, pieces: Vec<Vec<u8>>) -> io::Result<Ended> {
    let (from, to) = packet_pipe()?;
    run_fed(command, from.into(), to, pieces)
}

/// A text in pieces of this size, the last perhaps shorter.
pub fn pieces_of(text: &[u8], size: usize) -> Vec<Vec<u8>> {
    text.chunks(size).map(<[u8]>::to_vec).collect()
}

fn run_fed(
    mut command: Command,
    input: Stdio,
    mut feed: impl Write + Send + 'static,
    pieces: Vec<Vec<u8>>,
) -> io::Result<Ended> {
    command.stdin(input);
    command.stdout(Stdio::piped()).stderr(Stdio::piped());
    let mut child = command.spawn()?;
    // The program alone holds its end of the pipe from here on.
    drop(command);
    let writer = thread::spawn(move || {
        // A program that has read enough may have ended.
        pieces.iter().all(|piece| feed.write_all(piece).is_ok())
    });
    let mut pipe = child.stdout.take().expect("its output is a pipe");
    let (sender, receiver) = mpsc::channel();
    thread::spawn(move || {
        let mut output = Vec::new();
        let read = pipe.read_to_end(&mut output);
        sender.send(read.map(|_| output))
    });
    let output = receiver.recv_timeout(PATIENCE);
    if output.is_err() {
        child.kill()?;
    }
    let rest = child.wait_with_output()?;
    writer.join().expect("the writer ends");
    let late = |_| io::Error::new(io::ErrorKind::TimedOut, "it does not end");
    Ok(Ended {
        output: output.map_err(late)??,
        errors: rest.stderr,
        status: rest.status.code(),
    })
}

/// The beginning of some bytes, for messages.
fn shown(bytes: &[u8]) -> String {
    let beginning = &bytes[..bytes.len().min(80)];
    format!("{:?}", String::from_utf8_lossy(beginning))
}

/// The first line in which an output is not as wanted, in words.
fn difference(found: &[u8], wanted: &[u8]) -> Option<String> {
    let lines = |text| <[u8]>::split_inclusive(text, |&byte| byte == b'\n').collect();
    let (found, wanted): (Vec<&[u8]>, Vec<&[u8]>) = (lines(found), lines(wanted));
    let most = found.len().max(wanted.len());
    let at = (0..most).find(|&at| found.get(at) != wanted.get(at))?;
    let line = |of: &[&[u8]]| of.get(at).map_or("nothing".to_string(), |line| shown(line));
    let (found, wanted) = (line(&found), line(&wanted));
    Some(format!("line {}: found {found}, wanted {wanted}", at + 1))
}

/// What is wrong with a run that is to write this, in words; `errors` says whether
/// standard error has what it should.
pub fn fault(found: &Ended, errors: bool, wanted: &[u8]) -> Option<String> {
    match (found.status, errors) {
        (Some(0), true) => difference(&found.output, wanted),
        (Some(0), false) => Some(format!("on standard error {}", shown(&found.errors))),
        (status, _) => Some(format!("ended with the status {status:?}")),
    }
}

/// Counts a run; `fault` says what is wrong with one that ended. One that does not
/// end is the test's last, since the next would not end either.
pub fn note(
    count: &mut Count,
    group: &str,
    found: io::Result<Ended>,
    fault: impl FnOnce(Ended) -> Option<String>,
    about: impl FnOnce() -> Vec<u8>,
) {
    let hangs = matches!(&found, Err(error) if error.kind() == io::ErrorKind::TimedOut);
    let failure = match found {
        Err(error) => Some(format!("not run: {error}")),
        Ok(found) => fault(found),
    };
    count.note(failure.map(|what| format!("{group}: {what}")), about);
    if hangs {
        count.finish();
    }
}
