//! What a reader passes by one peek is a run, and its end the one that is found.
//! Under ILTC every run is passed.

use crate::group::{Group, Report};
use crate::readers::call::{Call, Case, State, INTEGER};
use crate::readers::compiled::Readers;
use crate::readers::library;
use crate::readers::run_end::{RunEnd, Search};
use crate::readers::sets::ILTC;
use crate::readers::words::compiled_for_integer;

const LONGEST: usize = 300;

pub fn run(report: &mut Report) {
    let mut group = Group::new("run ends, what a peek passes under ILTC");
    let rust = compiled_for_integer(ILTC);
    for separators in 0..=LONGEST {
        for before in ["", "1", "x"] {
            for behind in ["", "2", "x", "2_"] {
                let buffer = [before, &"_".repeat(separators), behind].concat();
                let state = State {
                    cursor: before.len(),
                    counts: [usize::from(before == "1"), 0, 0],
                };
                let case = Case {
                    word: rust.word(),
                    buffer: buffer.as_bytes(),
                    state,
                    reader: INTEGER,
                };
                compare(&mut group, rust, &case, separators);
            }
        }
    }
    report.close(group);
}

/// The peeks of both, the end, and the steps taken together.
fn compare(group: &mut Group, rust: &dyn Readers, case: &Case, separators: usize) {
    let at = case.state.cursor;
    let search = Search {
        buffer: case.buffer,
        separator: b'_',
        at,
    };
    let RunEnd { end, eights, ones } = library::run_end(&search);
    let peeked = rust.call(case, Call::Peek).passed;
    let passed = [
        ("Rust's peek", peeked),
        ("library's peek", library::call(case, Call::Peek).passed),
        ("end", end - at),
        ("steps", 8 * eights + ones),
    ];
    for answer in passed {
        group.agree(&search, answer, ("separators", separators));
    }
}
