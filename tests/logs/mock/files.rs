//! Files in pieces, and what is written.

use std::ffi::OsString;
use std::fs::File;
use std::io::{self, ErrorKind, Read, Write};

use reference::plan::MOST_BYTES;
use reference::program::PIECE;

use super::planted::planted;

pub fn print(text: &str) {
    let written = io::stdout().write_all(text.as_bytes());
    written
        .and_then(|()| io::stdout().flush())
        .expect("the output is written");
}

/// The line for a file that cannot be read.
pub fn complain(name: &OsString, error: &io::Error) {
    let mut line = name.as_encoded_bytes().to_vec();
    if planted("name-left-out") {
        line = b"a file".to_vec();
    }
    if !planted("reason-left-out") {
        line.extend(format!(": {error}").into_bytes());
    }
    line.push(b'\n');
    match () {
        _ if planted("complaint-left-out") => {}
        _ if planted("complaint-on-output") => print(&String::from_utf8_lossy(&line)),
        _ => io::stderr()
            .write_all(&line)
            .expect("the errors are written"),
    }
    if planted("status-of-1") {
        std::process::exit(1);
    }
}

/// A read, made again where a signal interrupts it.
fn read(file: &mut File, piece: &mut [u8]) -> io::Result<usize> {
    loop {
        match file.read(piece) {
            Err(error)
                if error.kind() == ErrorKind::Interrupted && !planted("interrupted-fails") => {}
            read => return read,
        }
    }
}

/// The text of a plan, up to a byte more than one may have.
pub fn read_plan(name: &OsString) -> io::Result<Vec<u8>> {
    let mut file = match File::open(name) {
        Err(_) if planted("missing-plan-is-empty") => return Ok(Vec::new()),
        opened => opened?,
    };
    let (mut text, mut piece) = (Vec::new(), [0; PIECE]);
    while text.len() <= MOST_BYTES {
        match read(&mut file, &mut piece) {
            Err(_) if planted("plan-failure-is-end") => break,
            Err(error) => return Err(error),
            Ok(0) => break,
            Ok(length) => text.extend_from_slice(&piece[..length]),
        }
        if planted("plan-in-one-read") {
            break;
        }
    }
    if planted("cut-at-65536") {
        text.truncate(MOST_BYTES);
    }
    if planted("oversize-from-65536") && text.len() == MOST_BYTES {
        text.push(b'\n');
    }
    Ok(text)
}

/// A log as it is read.
pub struct Pieces {
    file: File,
    piece: [u8; PIECE],
    /// Bytes that are read at most, and whether there are no more.
    left: usize,
    done: bool,
}

impl Pieces {
    pub fn open(name: &OsString) -> io::Result<Pieces> {
        let file = match File::open(name) {
            Err(_) if planted("missing-log-is-empty") => File::open("/dev/null")?,
            opened => opened?,
        };
        let left = match planted("log-of-65536-bytes") {
            true => 65_536,
            false => usize::MAX,
        };
        Ok(Pieces {
            file,
            piece: [0; PIECE],
            left,
            done: false,
        })
    }

    pub fn next(&mut self) -> io::Result<Option<&[u8]>> {
        if self.done {
            return Ok(None);
        }
        let length = match read(&mut self.file, &mut self.piece) {
            Err(error) if error.kind() == ErrorKind::IsADirectory => {
                match planted("directory-is-empty") {
                    true => 0,
                    false => return Err(error),
                }
            }
            Err(_) if planted("log-failure-is-end") => 0,
            read => read?,
        };
        let short = length < PIECE;
        let dropped = short && planted("last-piece-dropped");
        self.done = short && planted("short-read-ends-log") || planted("first-piece-only");
        let length = length.min(self.left);
        self.left -= length;
        Ok((length > 0 && !dropped).then_some(&self.piece[..length]))
    }
}

/// The output, which is written piece by piece.
pub struct Output {
    held: Vec<u8>,
    /// How much is held back.
    hold: usize,
}

impl Output {
    pub fn new() -> Output {
        let hold = match () {
            _ if planted("answers-at-the-end") || planted("answers-dropped") => usize::MAX,
            _ if planted("answers-in-blocks") => PIECE,
            _ => 0,
        };
        Output {
            held: Vec::new(),
            hold,
        }
    }

    pub fn add(&mut self, text: &str) {
        self.held.extend_from_slice(text.as_bytes());
    }

    pub fn write(&mut self) {
        if self.held.len() >= self.hold {
            self.finish();
        }
    }

    /// Forgets what is held back.
    pub fn drop(&mut self) {
        self.held.clear();
    }

    pub fn finish(&mut self) {
        print(&String::from_utf8_lossy(&self.held));
        self.held.clear();
    }
}
