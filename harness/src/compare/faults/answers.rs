//! The faults: the library's answers, each made wrong in one way, mostly by
//! asking it something else.

use super::{Fault, Shown};
use crate::readers::answer::{Answer, Found};
use crate::readers::call::{Call, Case, EXPONENT, SPECIAL};
use crate::readers::library::call;
use crate::readers::read::Read;
use crate::readers::refusal::ACCEPTED;
use crate::readers::sets::{C, IL, ILC, ILTC, L, NONE};
use crate::readers::table::View;
use crate::word::{reader_flags, Field, Word, SPECIAL_SEPARATOR};

pub const FAULTS: [Fault; 20] = [
    Fault {
        name: "later ILC taken for later IC",
        asked: later_ilc_as_ic,
        shown: Shown::Script(&[
            "text 1_",
            "open _ integer ILC radix 10",
            "take integer             # both print 3 49 1 1 0",
            "peek integer             # Rust: 2 - 2 0 1; library: 2 95 1 0 0",
        ]),
    },
    Fault {
        name: "first IL looks at the next byte too",
        asked: first_il_looks_ahead,
        shown: Shown::Script(&[
            "text __",
            "open _ integer IL radix 10",
            "peek integer             # Rust: 2 95 1 0 1; library: 2 95 0 0 0",
        ]),
    },
    Fault {
        name: "a take counts every byte",
        asked: take_counts_every_byte,
        shown: Shown::Script(&[
            "text x_",
            "open _ integer L radix 10",
            "take integer             # both print 3 120 1 1 0",
            "peek integer             # Rust: 2 - 2 0 1; library: 2 95 1 0 0",
        ]),
    },
    Fault {
        name: "the end is told early",
        asked: end_told_early,
        shown: Shown::Script(&[
            "text 1",
            "open _ radix 10",
            "peek integer             # Rust: 2 49 0 0 0; library: 2 - 0 0 0",
        ]),
    },
    Fault {
        name: "a peek never passes",
        asked: peek_never_passes,
        shown: Shown::Script(&[
            "text _",
            "open _ integer L radix 10",
            "peek integer             # Rust: 2 - 1 0 1; library: 2 95 0 0 0",
        ]),
    },
    Fault {
        name: "behind the first byte no reader passes",
        asked: passes_at_the_start_only,
        shown: Shown::Script(&[
            "text x_",
            "open _ integer L radix 10",
            "take integer             # both print 3 120 1 1 0",
            "peek integer             # Rust: 2 - 2 0 1; library: 2 95 1 0 0",
        ]),
    },
    Fault {
        name: "the exponent reader goes by its own radix",
        asked: exponent_by_its_own_radix,
        shown: Shown::Script(&[
            "text A_",
            "open _ integer ILT fraction ITC exponent L special radix 10 exponent-radix 16",
            "take integer             # both print 3 65 1 1 0",
            "peek exponent            # Rust: 2 - 2 0 1; library: 2 95 1 0 0",
        ]),
    },
    Fault {
        name: "a zero skip does not count",
        asked: zero_skip_does_not_count,
        shown: Shown::Script(&[
            "text 0x_",
            "open _ integer L radix 10",
            "zeros integer            # both print 5 1 1 1 0",
            "take integer             # both print 3 120 2 1 0",
            "peek integer             # Rust: 2 95 2 0 0; library: 2 - 3 0 1",
        ]),
    },
    Fault {
        name: "a run is passed but for its last separator",
        asked: run_passed_too_short,
        shown: Shown::Script(&[
            "text __",
            "open _ integer LC radix 10",
            "peek integer             # Rust: 2 - 2 0 2; library: 2 95 1 0 1",
        ]),
    },
    Fault {
        name: "the special reader passes where the integer reader may",
        asked: special_passes_as_integer,
        shown: Shown::Script(&[
            "text _",
            "open _ integer I radix 10",
            "peek special             # Rust: 2 95 0 0 0; library: 2 - 1 0 1",
        ]),
    },
    Fault {
        name: "the special reader passes a run of five but for its last separator",
        asked: special_passes_too_short,
        shown: Shown::Script(&[
            "text _____",
            "open _ fraction IT exponent ILC special radix 10",
            "peek special             # Rust: 2 - 5 0 5; library: 2 95 4 0 4",
        ]),
    },
    Fault {
        name: "a block of nine leaves a byte",
        asked: block_leaves_a_byte,
        shown: Shown::Script(&[
            "text 111111111",
            "open _ radix 10",
            "block integer 9          # Rust: 6 - 9 9 0; library: 6 - 8 8 0",
        ]),
    },
    Fault {
        name: "next_all tells one byte less",
        asked: next_all_tells_less,
        shown: Shown::Call {
            bytes: 1,
            reason: "a script has no next_all",
        },
    },
    Fault {
        name: "a separator that is a digit does not pass",
        asked: digit_separator_does_not_pass,
        shown: Shown::Call {
            bytes: 1,
            reason: "an open refuses the word with 4",
        },
    },
    Fault {
        name: "digits counted before any was read are forgotten",
        asked: forgets_digits_never_read,
        shown: Shown::Call {
            bytes: 1,
            reason: "no list of calls",
        },
    },
    Fault {
        name: "a byte is told where there is none",
        asked: byte_told_without_one,
        shown: Shown::Call {
            bytes: 0,
            reason: "no list of calls",
        },
    },
    Fault {
        name: "a declined read is told as the end",
        asked: declined_told_as_the_end,
        shown: Shown::Call {
            bytes: 1,
            reason: "no list of calls",
        },
    },
    Fault {
        name: "the end is told as a declined read",
        asked: end_told_as_declined,
        shown: Shown::Call {
            bytes: 0,
            reason: "a script has no read_if",
        },
    },
    Fault {
        name: "the byte that a declined read saw is told as 0",
        asked: byte_seen_told_as_0,
        shown: Shown::Call {
            bytes: 1,
            reason: "no list of calls",
        },
    },
    Fault {
        name: "what is to be kept of a state is changed",
        asked: changes_what_is_kept,
        shown: Shown::Call {
            bytes: 0,
            reason: "no list of calls",
        },
    },
];

/// The reader's stored count.
fn count(case: &Case) -> usize {
    match case.reader {
        SPECIAL => 0,
        reader => case.state.counts[usize::from(reader)],
    }
}

/// The same case by other flags of its reader.
fn with_set<'a>(case: &Case<'a>, set: u32) -> Case<'a> {
    let own = match case.reader {
        SPECIAL => SPECIAL_SEPARATOR,
        reader => reader_flags(reader, ILTC),
    };
    let new = match (case.reader, set) {
        (SPECIAL, NONE) => 0,
        (SPECIAL, _) => SPECIAL_SEPARATOR,
        (reader, set) => reader_flags(reader, set),
    };
    let lo = case.word.lo() & !own | new;
    Case {
        word: Word::from_halves(lo, case.word.hi()),
        ..*case
    }
}

fn set(case: &Case) -> u32 {
    match case.reader {
        0..=SPECIAL => case.word.reader_set(case.reader),
        _ => NONE,
    }
}

fn later_ilc_as_ic(case: &Case, what: Call) -> Answer {
    match set(case) {
        ILC if count(case) > 0 => call(&with_set(case, ILC & !L), what),
        _ => call(case, what),
    }
}

fn first_il_looks_ahead(case: &Case, what: Call) -> Answer {
    let view = View::new(case.word, case.reader, case.buffer);
    let before_separator = view.is_separator(view.at(case.state.cursor.wrapping_add(1)));
    match what {
        Call::Peek | Call::ReadIfValueCased(_)
            if set(case) == IL && count(case) == 0 && before_separator =>
        {
            call(&with_set(case, NONE), what)
        }
        _ => call(case, what),
    }
}

fn take_counts_every_byte(case: &Case, what: Call) -> Answer {
    let mut answer = call(case, what);
    let counts = case.reader != SPECIAL && set(case) != NONE && matches!(what, Call::Next);
    if counts && answer.taken > 0 {
        answer.state.counts[usize::from(case.reader)] = count(case) + 1;
    }
    answer
}

fn end_told_early(case: &Case, what: Call) -> Answer {
    match case.buffer {
        [but_one @ .., _] if case.state.cursor <= but_one.len() => {
            let buffer = but_one;
            call(&Case { buffer, ..*case }, what)
        }
        _ => call(case, what),
    }
}

fn peek_never_passes(case: &Case, what: Call) -> Answer {
    match what {
        Call::Peek if set(case) != C => call(&with_set(case, NONE), what),
        _ => call(case, what),
    }
}

fn passes_at_the_start_only(case: &Case, what: Call) -> Answer {
    let passing_ends = case.state.cursor > 0 && set(case) != C;
    match what {
        Call::Peek | Call::ReadIfValueCased(_) if passing_ends => call(&with_set(case, NONE), what),
        _ => call(case, what),
    }
}

fn exponent_by_its_own_radix(case: &Case, what: Call) -> Answer {
    match case.word.field(Field::ExponentRadix) {
        radix if case.reader == EXPONENT && radix != 0 => {
            let word = case.word.with_field(Field::MantissaRadix, radix);
            call(&Case { word, ..*case }, what)
        }
        _ => call(case, what),
    }
}

fn zero_skip_does_not_count(case: &Case, what: Call) -> Answer {
    let mut answer = call(case, what);
    if matches!(what, Call::SkipZeros) {
        answer.state.counts = case.state.counts;
    }
    answer
}

fn run_passed_too_short(case: &Case, what: Call) -> Answer {
    passed_too_short(case, what, 2)
}

fn special_passes_too_short(case: &Case, what: Call) -> Answer {
    match case.reader {
        SPECIAL => passed_too_short(case, what, 5),
        _ => call(case, what),
    }
}

/// Where a peek passes at least so many.
fn passed_too_short(case: &Case, what: Call, at_least: usize) -> Answer {
    let mut answer = call(case, what);
    if matches!(what, Call::Peek) && answer.passed >= at_least {
        answer.passed -= 1;
        answer.state.cursor -= 1;
        answer.found = Found::byte(Some(case.word.field(Field::Separator)));
    }
    answer
}

fn special_passes_as_integer(case: &Case, what: Call) -> Answer {
    let integer = case.word.reader_set(0);
    match what {
        Call::Peek | Call::Next if case.reader == SPECIAL => call(&with_set(case, integer), what),
        _ => call(case, what),
    }
}

fn block_leaves_a_byte(case: &Case, what: Call) -> Answer {
    match what {
        Call::TakeN(n) if n >= 9 => {
            let left = case.buffer.len().saturating_sub(case.state.cursor);
            call(case, Call::TakeN(n.min(left.max(9) - 1)))
        }
        _ => call(case, what),
    }
}

fn next_all_tells_less(case: &Case, what: Call) -> Answer {
    let mut answer = call(case, what);
    if matches!(what, Call::NextAll) {
        answer.taken = answer.taken.saturating_sub(1);
    }
    answer
}

fn digit_separator_does_not_pass(case: &Case, what: Call) -> Answer {
    let view = View::new(case.word, case.reader, &[]);
    let separator = Some(case.word.field(Field::Separator));
    match what {
        Call::Peek if view.is_digit(separator) && set(case) != C => {
            call(&with_set(case, NONE), what)
        }
        _ => call(case, what),
    }
}

/// Where all before the cursor is separators, no digit can have been read.
fn forgets_digits_never_read(case: &Case, what: Call) -> Answer {
    let mut answer = call(case, what);
    let view = View::new(case.word, case.reader, case.buffer);
    let read = case.buffer.get(..case.state.cursor);
    let none_read = |read: &[u8]| !read.iter().any(|&byte| view.is_digit(Some(byte)));
    if answer.number == ACCEPTED && read.is_some_and(none_read) && matches!(what, Call::Peek) {
        answer.state.counts = [0; 3];
    }
    answer
}

fn byte_told_without_one(case: &Case, what: Call) -> Answer {
    let mut answer = call(case, what);
    if matches!(what, Call::Peek) && answer.found == Found::NOTHING {
        answer.found.what = 0;
    }
    answer
}

fn declined_told_as_the_end(case: &Case, what: Call) -> Answer {
    let mut answer = call(case, what);
    if matches!(what, Call::ReadIfValueCased(_)) && answer.found.is_declined() {
        answer.found = Found::NOTHING;
    }
    answer
}

fn end_told_as_declined(case: &Case, what: Call) -> Answer {
    let mut answer = call(case, what);
    let accepted = answer.number == ACCEPTED;
    if accepted && matches!(what, Call::ReadIf(_)) && answer.found == Found::NOTHING {
        answer.found = Found::read(Read::Declined(0));
    }
    answer
}

fn byte_seen_told_as_0(case: &Case, what: Call) -> Answer {
    let mut answer = call(case, what);
    if matches!(what, Call::ReadIfValueCased(_)) && answer.found.is_declined() {
        answer.found.what = 0;
    }
    answer
}

fn changes_what_is_kept(case: &Case, what: Call) -> Answer {
    Answer {
        kept: !matches!(what, Call::Peek),
        ..call(case, what)
    }
}
