//! The programs that are measured, a proved one and a reference, run on the texts that they read.

use std::fs::{self, File};
use std::io::{self, Read};
use std::process::{Command, Output, Stdio};
use std::time::Instant;

#[derive(Clone, Copy)]
pub enum Program {
    Proved,
    Reference,
    /// The reference with a word behind all others, so that it works in another way.
    ReferenceOtherwise,
}

pub const PROGRAMS: [Program; 3] = [
    Program::Proved,
    Program::Reference,
    Program::ReferenceOtherwise,
];

/// What is read of an output at once.
const PIECE: usize = 65_536;

/// The folders of the proved programs, of the references, and of the texts that they read.
#[derive(Clone, Copy)]
pub struct Folders<'a> {
    pub proved: &'a str,
    pub reference: &'a str,
    pub texts: &'a str,
}

/// A proved program and the reference of the same name.
pub struct Programs<'a> {
    folders: Folders<'a>,
    name: &'static str,
    /// What the reference is told to work in its other way.
    otherwise: &'static str,
    /// Whether it is called with the names of a plan and a log, else it reads a plan from standard input.
    has_log: bool,
}

/// Runs a command and gives what it prints, if that is piped.
fn run(command: &mut Command) -> io::Result<Vec<u8>> {
    let output = command.stderr(Stdio::inherit()).output();
    let failed = |why| io::Error::other(format!("{command:?}: {why}"));
    match output {
        Ok(Output { status, stdout, .. }) if status.success() => Ok(stdout),
        Ok(Output { status, .. }) => Err(failed(status.to_string())),
        Err(error) => Err(failed(error.to_string())),
    }
}

/// Hands on the output of a command piece by piece as long as more is wanted, and ends it.
fn read_output(command: &mut Command, mut wants_more: impl FnMut(&[u8]) -> bool) -> io::Result<()> {
    command.stdout(Stdio::piped()).stderr(Stdio::null());
    let mut child = command.spawn()?;
    let mut output = child.stdout.take().expect("its output is a pipe");
    let mut piece = [0; PIECE];
    loop {
        let size = output.read(&mut piece)?;
        if size == 0 || !wants_more(&piece[..size]) {
            break;
        }
    }
    drop(output);
    child.kill()?;
    child.wait().map(drop)
}

/// How many lines end in these bytes.
pub fn feeds(bytes: &[u8]) -> usize {
    bytes.iter().filter(|&&byte| byte == b'\n').count()
}

/// Lines of an output, and the seconds up to the last of them.
pub struct Pace {
    pub lines: usize,
    pub bytes: usize,
    pub seconds: f64,
}

impl<'a> Programs<'a> {
    /// Those that replay a log; the reference checks the table at every call, or `once` for each piece of the log, as the proved program does.
    pub fn replays(folders: Folders<'a>) -> Programs<'a> {
        Programs {
            folders,
            name: "replay",
            otherwise: "once",
            has_log: true,
        }
    }

    /// Those that print all short runs; the reference writes each line by itself, as the proved program does, or many at once in `pieces`.
    pub fn runs(folders: Folders<'a>) -> Programs<'a> {
        Programs {
            folders,
            name: "runs",
            otherwise: "pieces",
            has_log: false,
        }
    }

    fn file(&self, name: &str) -> String {
        format!("{}/{name}", self.folders.texts)
    }

    /// Puts plan and log where the programs find them.
    pub fn lay(&self, plan: &[u8], log: &[u8]) -> io::Result<()> {
        fs::write(self.file("plan"), plan)?;
        fs::write(self.file("log"), log)
    }

    /// The command line of a program.
    fn words(&self, program: Program) -> Vec<String> {
        let (folder, last) = match program {
            Program::Proved => (self.folders.proved, None),
            Program::Reference => (self.folders.reference, None),
            Program::ReferenceOtherwise => {
                (self.folders.reference, Some(self.otherwise.to_string()))
            }
        };
        let mut words = vec![format!("{folder}/{}", self.name)];
        if self.has_log {
            words.extend([self.file("plan"), self.file("log")]);
        }
        words.extend(last);
        words
    }

    /// A command of these words with the plan as its input.
    fn command(&self, words: &[String]) -> io::Result<Command> {
        let mut command = Command::new(&words[0]);
        command.args(&words[1..]);
        if !self.has_log {
            command.stdin(File::open(self.file("plan"))?);
        }
        Ok(command)
    }

    pub fn printed(&self, program: Program) -> io::Result<Vec<u8>> {
        run(&mut self.command(&self.words(program))?)
    }

    /// The first lines of what a program prints, at most so many.
    pub fn beginning(&self, program: Program, most: usize) -> io::Result<Vec<u8>> {
        let (mut printed, mut lines) = (Vec::new(), 0);
        read_output(&mut self.command(&self.words(program))?, |piece| {
            printed.extend_from_slice(piece);
            lines += feeds(piece);
            lines < most
        })?;
        let lines = printed.split_inclusive(|&byte| byte == b'\n').take(most);
        Ok(lines.collect::<Vec<_>>().concat())
    }

    /// How long a program takes from its start to its end. What it prints goes to /dev/null.
    pub fn seconds(&self, program: Program) -> io::Result<f64> {
        let mut command = self.command(&self.words(program))?;
        let start = Instant::now();
        run(command.stdout(Stdio::null()))?;
        Ok(start.elapsed().as_secs_f64())
    }

    /// How long a program takes from its start to so many lines, or to its end. What it prints goes through a pipe.
    pub fn pace(&self, program: Program, most: usize) -> io::Result<Pace> {
        let mut command = self.command(&self.words(program))?;
        let start = Instant::now();
        let mut pace = Pace {
            lines: 0,
            bytes: 0,
            seconds: 0.0,
        };
        read_output(&mut command, |piece| {
            pace.lines += feeds(piece);
            pace.bytes += piece.len();
            pace.seconds = start.elapsed().as_secs_f64();
            pace.lines < most
        })?;
        Ok(pace)
    }

    /// What callgrind counts from a program's start to its end, with these tunables of glibc.
    pub fn instructions(&self, program: Program, tunables: &str) -> io::Result<f64> {
        let counts = self.file(&format!("callgrind-{}", self.name));
        let mut words = ["valgrind", "--quiet", "--tool=callgrind"]
            .map(str::to_string)
            .to_vec();
        words.push(format!("--callgrind-out-file={counts}"));
        words.extend(self.words(program));
        let mut command = self.command(&words)?;
        command.env("GLIBC_TUNABLES", tunables);
        run(command.stdout(Stdio::null()))?;
        let counts = fs::read_to_string(counts)?;
        let summary = counts
            .lines()
            .find_map(|line| line.strip_prefix("summary: "));
        let count = summary.and_then(|count| count.trim().parse().ok());
        count.ok_or(io::Error::other("callgrind gives no count"))
    }
}
