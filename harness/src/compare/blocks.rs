//! Blocks whose size and cursor together are more than a number can hold. The
//! crate's sum wraps there, so these go by the definition: all that is left is
//! taken, and a reader with flags takes nothing.

use crate::group::{Group, Report};
use crate::readers::answer::{Answer, Found};
use crate::readers::call::{Call, Case, State, COUNTED};
use crate::readers::library;
use crate::readers::sets::NONE;
use crate::readers::words::compiled;

const BUFFER: &[u8] = b"1_0x.2";

pub fn run(report: &mut Report) {
    let mut group = Group::new("readers, take_n, sums that wrap");
    for &rust in compiled() {
        for reader in COUNTED {
            for cursor in 1..=BUFFER.len() {
                let counts = [cursor, 0, 0];
                let case = Case {
                    word: rust.word(),
                    buffer: BUFFER,
                    state: State { cursor, counts },
                    reader,
                };
                compare_sizes(&mut group, &case);
            }
        }
    }
    report.close(group);
}

/// Every size from the first that wraps to the largest.
fn compare_sizes(group: &mut Group, case: &Case) {
    let expected = defined(case);
    for less in 0..case.state.cursor {
        let call = Call::TakeN(usize::MAX - less);
        group.agree(
            &format_args!("{call}, {case}"),
            ("library", library::call(case, call)),
            ("definition", expected),
        );
    }
}

fn defined(case: &Case) -> Answer {
    let mut after = case.state;
    if case.word.reader_set(case.reader) != NONE {
        return Answer::new(case.state, Found::NOTHING, 0, after);
    }
    let left = &case.buffer[case.state.cursor..];
    after.cursor = case.buffer.len();
    let found = Found::block(case.buffer, Some(left));
    Answer::new(case.state, found, left.len(), after)
}
