//! A run of the program whose output is read as far as is wanted, and then closed.

use std::fs;
use std::io::{self, Read, Write};
use std::path::Path;
use std::process::{Child, Command, ExitStatus, Stdio};
use std::sync::mpsc::{sync_channel, Receiver};
use std::thread;
use std::time::{Duration, Instant};

use reference::program::{Ended, PIECE};

/// How long the next bytes of the output may take, and the end behind them.
const SOON: Duration = Duration::from_secs(10);

/// How long to wait between two looks at whether it has ended.
const MOMENT: Duration = Duration::from_millis(1);

pub struct Open {
    child: Child,
    /// Pieces of the output. The one at hand is not read before it is taken, so that the
    /// program is never far ahead.
    pieces: Receiver<Vec<u8>>,
    /// The rest of the piece that was taken last.
    rest: Vec<u8>,
}

/// Hands on the output piece by piece until nobody takes them.
fn read_all(mut output: impl Read + Send + 'static) -> Receiver<Vec<u8>> {
    let (sender, pieces) = sync_channel(0);
    thread::spawn(move || {
        let mut piece = [0; PIECE];
        while let Ok(length @ 1..) = output.read(&mut piece) {
            if sender.send(piece[..length].to_vec()).is_err() {
                break;
            }
        }
    });
    pieces
}

impl Open {
    /// The program on a text that it is handed through a pipe.
    pub fn new(program: &Path, text: &[u8]) -> io::Result<Open> {
        let mut command = Command::new(program);
        command.stdin(Stdio::piped());
        command.stdout(Stdio::piped()).stderr(Stdio::piped());
        let mut child = command.spawn()?;
        let mut input = child.stdin.take().expect("its input is a pipe");
        let output = child.stdout.take().expect("its output is a pipe");
        let text = text.to_vec();
        // A program that has read enough may have ended.
        thread::spawn(move || input.write_all(&text).is_ok());
        Ok(Open {
            child,
            pieces: read_all(output),
            rest: Vec::new(),
        })
    }

    /// The next bytes of the output, so many; fewer where it ends or nothing comes soon.
    pub fn take(&mut self, count: usize) -> Vec<u8> {
        let mut taken = std::mem::take(&mut self.rest);
        while taken.len() < count {
            match self.pieces.recv_timeout(SOON) {
                Ok(piece) => taken.extend(piece),
                Err(_) => return taken,
            }
        }
        self.rest = taken.split_off(count);
        taken
    }

    /// The most memory that the program has had, in kilobytes.
    pub fn memory(&self) -> io::Result<u64> {
        let file = format!("/proc/{}/status", self.child.id());
        let status = fs::read_to_string(file)?;
        let mut lines = status.lines();
        let field = lines.find_map(|line| line.strip_prefix("VmHWM:"));
        let number = field.and_then(|field| field.trim().strip_suffix(" kB")?.parse().ok());
        number.ok_or_else(|| io::Error::other("it does not say its memory"))
    }

    /// The time that processors gave the program, in hundredths of a second.
    pub fn worked(&self) -> io::Result<u64> {
        let stat = fs::read_to_string(format!("/proc/{}/stat", self.child.id()))?;
        // Fields 14 and 15 are its own and the system's; field 2 is a name in parentheses.
        let behind = stat.rsplit(')').next().unwrap_or_default();
        let fields = behind.split_whitespace().skip(11).take(2);
        let times: Option<Vec<u64>> = fields.map(|field| field.parse().ok()).collect();
        let sum = times.map(|times| times.iter().sum());
        sum.ok_or_else(|| io::Error::other("it does not say its time"))
    }

    /// How the program ends once its output is closed; the output was taken before.
    pub fn close(mut self) -> io::Result<Ended> {
        drop(self.pieces);
        let status = status_of(&mut self.child)?;
        let mut errors = Vec::new();
        let mut from = self.child.stderr.take().expect("its errors are a pipe");
        from.read_to_end(&mut errors)?;
        Ok(Ended {
            output: Vec::new(),
            errors,
            status: status.code(),
        })
    }
}

/// The status of a program that ends soon; one that does not is ended.
fn status_of(child: &mut Child) -> io::Result<ExitStatus> {
    let start = Instant::now();
    while start.elapsed() < SOON {
        if let Some(status) = child.try_wait()? {
            return Ok(status);
        }
        thread::sleep(MOMENT);
    }
    child.kill()?;
    child.wait()?;
    Err(io::Error::new(
        io::ErrorKind::TimedOut,
        "it does not end where its output is closed",
    ))
}
