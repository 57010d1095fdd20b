//! What the program does where the system fails it: it says so on standard error.
//! Its exit status is not compared, since nothing says which one it is then.

use std::fs::File;
use std::io::{self, Write};
use std::process::Stdio;

use super::program::{Outcome, Program};
use super::records::Script;
use crate::group::{Group, Report};
use crate::readers::sets::I;
use crate::readers::words::with_integer_flags;

/// A device that takes nothing.
const FULL: &str = "/dev/full";

/// A folder can be opened as a file and not be read.
const FOLDER: &str = "/";

pub fn run(report: &mut Report, program: &Program) {
    let mut group = Group::new("script program, failing reads and writes are told");
    let mut expect = |what: &str, outcome| {
        group.agree(&what, ("told", is_told(outcome)), ("harness", true));
    };
    expect("unreadable input", unreadable(program));
    if File::open(FULL).is_ok() {
        expect("full output", unwritable(program));
    }
    report.close(group);
}

fn is_told(outcome: io::Result<Outcome>) -> bool {
    let outcome = outcome.expect("a program that starts");
    !outcome.errors.is_empty()
}

fn unreadable(program: &Program) -> io::Result<Outcome> {
    let output = program.command().stdin(File::open(FOLDER)?).output()?;
    Ok(Outcome::of(output))
}

fn unwritable(program: &Program) -> io::Result<Outcome> {
    let full = File::options().write(true).open(FULL)?;
    let mut child = program
        .command()
        .stdin(Stdio::piped())
        .stdout(full)
        .spawn()?;
    let Script(input) = Script::default().open(with_integer_flags(I));
    let mut stdin = child.stdin.take().expect("a pipe to the program");
    stdin.write_all(&input)?;
    drop(stdin);
    Ok(Outcome::of(child.wait_with_output()?))
}
