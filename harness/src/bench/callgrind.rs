//! Counts instructions by valgrind's callgrind: a command of this program is run
//! under it, and leaves a file behind each call of a function.

use std::env;
use std::fs;
use std::io;
use std::path::Path;
use std::process::{Command, Stdio};

use crate::scratch::Folder;

/// What to say where there are no counts.
pub fn tell_missing(error: &io::Error) {
    println!("\nInstructions were not counted: valgrind's callgrind is needed ({error}).");
}

/// The instructions of each call of a function, which is called so many times:
/// its own and those of all that it calls.
pub fn count(command: &str, function: &str, calls: usize) -> io::Result<Vec<f64>> {
    let folder = Folder::new("pawhetino-callgrind")?;
    let files = folder.path().join("out");
    run(command, function, &files)?;
    let file = |call| format!("{}.{call}", files.display());
    (1..=calls)
        .map(|call| total(&fs::read_to_string(file(call))?))
        .collect()
}

fn run(command: &str, function: &str, files: &Path) -> io::Result<()> {
    let status = Command::new("valgrind")
        .arg("--tool=callgrind")
        .arg(format!("--toggle-collect={function}"))
        .arg(format!("--dump-after={function}"))
        .arg(format!("--callgrind-out-file={}", files.display()))
        .arg(env::current_exe()?)
        .arg(command)
        .stderr(Stdio::null())
        .status()?;
    if status.success() {
        Ok(())
    } else {
        Err(io::Error::other(format!("valgrind: {status}")))
    }
}

fn total(profile: &str) -> io::Result<f64> {
    let line = profile
        .lines()
        .find_map(|line| line.strip_prefix("totals: "));
    line.and_then(|total| total.parse().ok())
        .ok_or_else(|| io::Error::other("a callgrind file without a total"))
}
