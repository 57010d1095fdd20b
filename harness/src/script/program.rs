//! The program under test, run as a process.

use std::env;
use std::fmt;
use std::io::{self, Write};
use std::path::{Path, PathBuf};
use std::process::{ChildStdin, Command, Output, Stdio};
use std::thread;
use std::time::Duration;

/// Where the program is, unless the environment says otherwise.
const DEFAULT: &str = "target/bin/script";

/// Long enough that a waiting program has read one piece before the next one.
const PAUSE: Duration = Duration::from_micros(60);

/// How much of an output is shown.
const SHOWN: usize = 60;

pub struct Program(PathBuf);

/// How the input reaches the program.
#[derive(Clone, Copy)]
pub enum Feed {
    Whole,
    /// Pieces of so many bytes, with a pause behind each.
    Pieces(usize),
}

/// All that a run leaves behind.
#[derive(PartialEq, Eq)]
pub struct Outcome {
    /// None where a signal ended it.
    pub status: Option<i32>,
    pub output: Vec<u8>,
    pub errors: Vec<u8>,
}

impl Program {
    /// The one that the variable SCRIPT names.
    pub fn named() -> Self {
        Self(env::var_os("SCRIPT").map_or(DEFAULT.into(), PathBuf::from))
    }

    pub fn path(&self) -> &Path {
        &self.0
    }

    pub fn run(&self, input: &[u8], feed: Feed) -> io::Result<Outcome> {
        let mut child = self.command().stdin(Stdio::piped()).spawn()?;
        let stdin = child.stdin.take().expect("a pipe to the program");
        // Fed from a thread, since the program may wait for its output to be
        // read before it reads on.
        let done = thread::scope(|scope| {
            scope.spawn(move || feed.write(stdin, input));
            child.wait_with_output()
        });
        done.map(Outcome::of)
    }

    /// The program with pipes for what it writes.
    pub fn command(&self) -> Command {
        let mut command = Command::new(&self.0);
        command.stdout(Stdio::piped()).stderr(Stdio::piped());
        command
    }
}

impl Feed {
    /// A failing write is no matter: a program that stops need not read on.
    fn write(self, mut stdin: ChildStdin, input: &[u8]) {
        let _ = match self {
            Self::Whole => stdin.write_all(input),
            Self::Pieces(size) => input.chunks(size).try_for_each(|piece| {
                thread::sleep(PAUSE);
                stdin.write_all(piece)
            }),
        };
    }
}

impl Outcome {
    pub fn of(output: Output) -> Self {
        Self {
            status: output.status.code(),
            output: output.stdout,
            errors: output.stderr,
        }
    }

    /// What is expected of every script.
    pub fn printed(output: Vec<u8>) -> Self {
        Self {
            status: Some(0),
            output,
            errors: Vec::new(),
        }
    }

    /// Where the outputs of two runs part: the start of that line.
    pub fn parts_from(&self, other: &Self) -> usize {
        let pairs = self.output.iter().zip(&other.output);
        let same = pairs.take_while(|(one, other)| one == other).count();
        let line = self.output[..same].iter().rposition(|&byte| byte == b'\n');
        line.map_or(0, |end| end + 1)
    }
}

/// A run, shown from one byte of its output on.
#[derive(PartialEq, Eq)]
pub struct Shown<'a> {
    pub outcome: &'a Outcome,
    pub from: usize,
}

impl fmt::Display for Shown<'_> {
    fn fmt(&self, out: &mut fmt::Formatter<'_>) -> fmt::Result {
        let Outcome {
            status,
            output,
            errors,
        } = self.outcome;
        match status {
            Some(status) => write!(out, "(status {status}")?,
            None => write!(out, "(ended by a signal")?,
        }
        write!(out, ", {} bytes", output.len())?;
        let rest = &output[self.from..];
        let shown = rest[..rest.len().min(SHOWN)].escape_ascii();
        write!(out, ", from byte {}: \"{shown}\"", self.from)?;
        if !errors.is_empty() {
            write!(out, ", standard error \"{}\"", errors.escape_ascii())?;
        }
        out.write_str(")")
    }
}
