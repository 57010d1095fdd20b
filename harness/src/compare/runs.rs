//! Long runs of separators, between all kinds of neighbours.

use super::small::counts;
use super::smallest::{self, Input};
use crate::group::{Group, Report};
use crate::readers::call::{Call, Case, State};
use crate::readers::compiled::Readers;
use crate::readers::library;
use crate::readers::words::{compiled, with_flags, DECIMAL};

const LONGEST: usize = 300;

/// No byte, a digit that can be skipped too, another byte.
const NEIGHBOURS: [&[u8]; 3] = [b"", b"0", b"x"];

const CALLS: [Call; 5] = [
    Call::Peek,
    Call::Next,
    Call::NextAll,
    Call::SkipZeros,
    Call::DigitRun,
];

pub fn run(report: &mut Report) {
    let mut group =
        Group::new("readers, long runs, peek, next, next_all, skip_zeros and digit_run");
    let mut first = None;
    let decimal = compiled()
        .iter()
        .filter(|rust| rust.word().hi() == DECIMAL.hi());
    for &rust in decimal {
        for length in 1..=LONGEST {
            for before in NEIGHBOURS {
                for after in NEIGHBOURS {
                    let buffer = [before, &b"_".repeat(length), after].concat();
                    let start = before.len();
                    // From the start on a cell is fresh, and may be read by numbers alone.
                    for cursor in [0, start, start + length / 2] {
                        compare_at(&mut group, &mut first, rust, &buffer, cursor);
                    }
                }
            }
        }
    }
    report.close(group);
    if let Some(first) = &first {
        smallest::tell(report, first, library::call);
    }
}

/// Keeps the first input on which the two part.
fn compare_at(
    group: &mut Group,
    first: &mut Option<Input>,
    rust: &'static dyn Readers,
    buffer: &[u8],
    cursor: usize,
) {
    let word = rust.word();
    for reader in with_flags(word) {
        for counts in counts(reader, cursor) {
            let case = Case {
                word,
                buffer,
                state: State { cursor, counts },
                reader,
            };
            for call in CALLS {
                let same = group.agree(
                    &format_args!("{call}, {case}"),
                    ("library", library::call(&case, call)),
                    ("Rust", rust.call(&case, call)),
                );
                if !same && first.is_none() {
                    *first = Some(Input::of_call(rust, &case, call));
                }
            }
        }
    }
}
