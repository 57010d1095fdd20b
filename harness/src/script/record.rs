//! Writes the recorded scripts as text, for a program without Rust at hand.
//!
//! `# name`, then the input's bytes in hexadecimal on lines that begin with `<`,
//! then the output's lines behind `>`; a blank line between two scripts. A `<`
//! behind a `>` is a further piece of the input, which is given when the lines
//! above it are printed. Records are two blanks apart, an open stands on a line of
//! its own, and `N*(..)` is N times what stands in it, bytes or a line.

use std::fmt::Display;
use std::io::{self, BufWriter, Write};
use std::ops::Range;
use std::process::ExitCode;

use super::cases::Case;
use super::records::{Script, OPEN};
use super::{cases, oracle, records};

/// How many records, or repeated ones, stand on a line.
const ON_A_LINE: usize = 12;

/// From how many on equal records are written as repeated.
const REPEATED: usize = 8;

/// The same for equal lines of output.
const REPEATED_LINES: usize = 100;

pub fn run(seed: u64) -> ExitCode {
    match write_all(seed) {
        Ok(()) => ExitCode::SUCCESS,
        Err(error) => {
            eprintln!("harness: cannot write the scripts: {error}");
            ExitCode::FAILURE
        }
    }
}

fn write_all(seed: u64) -> io::Result<()> {
    let mut out = BufWriter::new(io::stdout().lock());
    for (place, case) in cases::all(seed).iter().enumerate() {
        if place > 0 {
            writeln!(out)?;
        }
        write_case(&mut out, case)?;
    }
    out.flush()
}

fn write_case(out: &mut impl Write, case: &Case) -> io::Result<()> {
    let Script(input) = &case.script;
    writeln!(out, "# {}", case.name)?;
    if input.is_empty() {
        writeln!(out, "<")?;
    }
    let (mut start, mut printed) = (0, 0);
    for &end in case.cuts.iter().chain([&input.len()]) {
        for line in lines(input, start..end) {
            writeln!(out, "< {line}")?;
        }
        let output = printed_for(input, end);
        write_output(out, &output[printed..])?;
        (start, printed) = (end, output.len());
    }
    Ok(())
}

/// What is printed for the first bytes of an input: for its whole records, or at
/// the input's end for all of it.
fn printed_for(input: &[u8], end: usize) -> Vec<u8> {
    let read = match end == input.len() {
        true => end,
        false => records::whole_until(input, end),
    };
    oracle::output(&input[..read]).expect("a script whose output can be told")
}

fn write_output(out: &mut impl Write, output: &[u8]) -> io::Result<()> {
    let output = String::from_utf8_lossy(output);
    let lines: Vec<&str> = output.lines().collect();
    for (line, times) in repeated(&lines, REPEATED_LINES) {
        writeln!(out, "> {}", times_written(line, times))?;
    }
    Ok(())
}

/// A piece of the input, a few records on a line.
fn lines(input: &[u8], piece: Range<usize>) -> Vec<String> {
    let mut lines: Vec<Vec<String>> = Vec::new();
    let mut line_is_full = true;
    for (record, times) in repeated(&split(input, piece), REPEATED) {
        let is_open = record[0] == OPEN;
        if is_open || line_is_full {
            lines.push(Vec::new());
        }
        let line = lines.last_mut().expect("a line");
        line.push(written(record, times));
        line_is_full = is_open || line.len() == ON_A_LINE;
    }
    lines.iter().map(|line| line.join("  ")).collect()
}

/// The records of a piece, of which the first and the last may be cut by its ends.
fn split(input: &[u8], piece: Range<usize>) -> Vec<&[u8]> {
    let mut split = Vec::new();
    let mut start = 0;
    while start < piece.end {
        let end = start + records::length(&input[start..]);
        let within = start.max(piece.start)..end.min(piece.end);
        if !within.is_empty() {
            split.push(&input[within]);
        }
        start = end;
    }
    split
}

/// Equal neighbours as one with its number, where they are many.
fn repeated<T: Copy + PartialEq>(items: &[T], many: usize) -> Vec<(T, usize)> {
    items
        .chunk_by(|one, other| one == other)
        .flat_map(|equal| match equal.len() {
            times if times >= many => vec![(equal[0], times)],
            times => vec![(equal[0], 1); times],
        })
        .collect()
}

fn written(record: &[u8], times: usize) -> String {
    let bytes: Vec<String> = record.iter().map(|byte| format!("{byte:02X}")).collect();
    times_written(bytes.join(" "), times)
}

fn times_written(item: impl Display, times: usize) -> String {
    match times {
        1 => item.to_string(),
        _ => format!("{times}*({item})"),
    }
}
