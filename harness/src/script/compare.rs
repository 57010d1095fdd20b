//! The program beside the crate: each script is run as a process, and its output,
//! exit status and standard error are compared with what is due.

use std::fmt;

use super::damage::DAMAGES;
use super::draw::Draw;
use super::program::{Feed, Outcome, Program, Shown};
use super::seen::Seen;
use super::{draw, edges, failures, long, oracle};
use crate::group::{Group, Report};
use crate::rng::Rng;

const WHOLE: u32 = 1_200;

/// For each kind of damage.
const DAMAGED: u32 = 250;

const NEARLY_FULL: u32 = 100;

const FED_IN_PIECES: u32 = 60;

/// Sizes of pieces: a byte, and some that no record's length is a multiple of.
const PIECES: [usize; 5] = [1, 2, 5, 7, 16];

/// How many bytes of a script are shown.
const SHOWN: usize = 48;

pub fn run(report: &mut Report, seed: u64) {
    let program = Program::named();
    if !program.path().is_file() {
        report.close(missing(&program));
        return;
    }
    let mut drawn = Drawn {
        program: &program,
        rng: Rng::new(seed, "scripts"),
        seen: Seen::default(),
    };
    report.close(drawn.group("whole scripts", draw::whole, WHOLE));
    for (name, draw) in DAMAGES {
        report.close(drawn.group(name, draw, DAMAGED));
    }
    report.close(drawn.group(
        "text nearly full or too long",
        draw::nearly_full,
        NEARLY_FULL,
    ));
    report.close(drawn.in_pieces());
    edges::run(report, &program);
    long::run(report, &program, seed);
    failures::run(report, &program);
    drawn.seen.close(report);
}

/// A group that fails and says why.
fn missing(program: &Program) -> Group {
    let mut group = Group::new("script program");
    group.agree(
        &program.path().display(),
        ("file", "is missing (build it, or set SCRIPT)"),
        ("harness", "runs it"),
    );
    group
}

/// Scripts drawn at random.
struct Drawn<'a> {
    program: &'a Program,
    rng: Rng,
    seen: Seen,
}

impl Drawn<'_> {
    fn group(&mut self, name: &str, draw: Draw, count: u32) -> Group {
        let mut group = Group::new(format!("script program, {name}"));
        for _ in 0..count {
            self.compare(&mut group, draw, Feed::Whole);
        }
        group
    }

    /// Whole scripts through a pipe, in pieces that end within records.
    fn in_pieces(&mut self) -> Group {
        let mut group = Group::new("script program, fed in small pieces");
        for _ in 0..FED_IN_PIECES {
            let feed = Feed::Pieces(self.rng.pick(&PIECES));
            self.compare(&mut group, draw::whole, feed);
        }
        group
    }

    fn compare(&mut self, group: &mut Group, draw: Draw, feed: Feed) {
        let (input, output) = draw::with_output(&mut self.rng, draw);
        self.seen.note(&output);
        compare_output(group, self.program, &input, output, feed);
    }
}

/// Compares a run on a script whose output can be told.
pub fn compare(group: &mut Group, program: &Program, input: &[u8]) {
    let output = oracle::output(input).expect("a script whose output can be told");
    compare_output(group, program, input, output, Feed::Whole);
}

fn compare_output(group: &mut Group, program: &Program, input: &[u8], output: Vec<u8>, feed: Feed) {
    let expected = Outcome::printed(output);
    let outcome = program.run(input, feed).expect("a program that starts");
    let from = outcome.parts_from(&expected);
    let shown = |outcome| Shown { outcome, from };
    group.agree(
        &Hex(input),
        ("program", shown(&outcome)),
        ("Rust", shown(&expected)),
    );
}

/// A script as its first bytes.
struct Hex<'a>(&'a [u8]);

impl fmt::Display for Hex<'_> {
    fn fmt(&self, out: &mut fmt::Formatter<'_>) -> fmt::Result {
        write!(out, "{} bytes", self.0.len())?;
        for byte in self.0.iter().take(SHOWN) {
            write!(out, " {byte:02X}")?;
        }
        let cut = self.0.len() > SHOWN;
        out.write_str(if cut { " .." } else { "" })
    }
}
