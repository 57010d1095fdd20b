//! States of an edition that there is none of. Every call refuses such a state
//! before it asks anything else of it, and changes nothing.

use super::lent::Lent;
use super::refusals::{consecutive_alone, cursors, BUFFERS, CALLS};
use crate::group::{Group, Report};
use crate::readers::answer::CountAnswer;
use crate::readers::call::{Case, State};
use crate::readers::library::{self, EDITION_AT};
use crate::readers::refusal::UNKNOWN_EDITION;
use crate::readers::words::DECIMAL;

/// Some that a narrower number would turn into the one that is known.
pub const UNKNOWN: [u64; 5] = [1, 2, 1 << 8, 1 << 32, u64::MAX];

/// None, some, and more than a number can hold.
const COUNTS: [[usize; 3]; 3] = [[0; 3], [1, 0, 0], [usize::MAX, 1, 0]];

pub fn run(report: &mut Report) {
    let mut group = Group::new("refusals, 19, unknown edition");
    for word in [DECIMAL, consecutive_alone()] {
        for buffer in BUFFERS {
            for cursor in cursors(buffer) {
                for counts in COUNTS {
                    for reader in 0..=255 {
                        let case = Case {
                            word,
                            buffer,
                            state: State { cursor, counts },
                            reader,
                        };
                        compare_editions(&mut group, &case);
                    }
                }
            }
        }
    }
    report.close(group);
}

fn compare_editions(group: &mut Group, case: &Case) {
    for edition in UNKNOWN {
        let mut state = library::raw(case);
        state[EDITION_AT] = edition;
        for call in CALLS {
            group.agree(
                &format_args!("{call}, edition {edition}, {case}"),
                ("library", Lent::to(call, case.buffer, case.reader, state)),
                ("definition", Lent::refused(UNKNOWN_EDITION, state)),
            );
        }
        let refused = CountAnswer {
            number: UNKNOWN_EDITION,
            count: library::UNTOUCHED_NUMBER,
            kept: true,
        };
        group.agree(
            &format_args!("current_count, edition {edition}, {case}"),
            (
                "library",
                library::ask_count(case.buffer, case.reader, state),
            ),
            ("definition", refused),
        );
    }
}
