//! Refusals. The crate has none, so these go by the definition: which number,
//! and that nothing else is changed.

use std::collections::BTreeMap;

use super::ported;
use crate::group::{Group, Report};
use crate::readers::answer::{Answer, CountAnswer};
use crate::readers::call::{ByteSet, Call, Case, State, COUNTED, READERS, SPECIAL};
use crate::readers::refusal::{
    ACCEPTED, CONSECUTIVE_INTEGER, COUNTS_EXCEED_THE_CURSOR, CURSOR_PAST_THE_END, NO_DIGIT,
    SPECIAL_HAS_NO_SUCH_CALL, UNKNOWN_READER,
};
use crate::readers::sets::{C, ILTC};
use crate::readers::words::DECIMAL;
use crate::readers::{library, refusal};
use crate::word::{reader_flags, Word, SPECIAL_SEPARATOR};

const NAMES: [(u32, &str); 9] = [
    (ACCEPTED, "no refusal, where none is due"),
    (CONSECUTIVE_INTEGER, "12, consecutive alone, integer"),
    (13, "13, consecutive alone, fraction"),
    (14, "14, consecutive alone, exponent"),
    (CURSOR_PAST_THE_END, "16, cursor past the end"),
    (COUNTS_EXCEED_THE_CURSOR, "17, counts exceed the cursor"),
    (
        SPECIAL_HAS_NO_SUCH_CALL,
        "18, special reader, zero skip, block or digit run",
    ),
    (UNKNOWN_READER, "19, reader byte above 3"),
    (NO_DIGIT, "23, digit run without a digit"),
];

pub const BUFFERS: [&[u8]; 5] = [b"", b"_", b"1", b"1_2", b"__1__"];

/// Some of these add up to a small number if the sum wraps.
const COUNTS: [usize; 5] = [0, 1, 2, usize::MAX / 2 + 1, usize::MAX];

pub const CALLS: [Call; 10] = [
    Call::Peek,
    Call::Next,
    Call::NextAll,
    Call::ReadIf(ByteSet::ALL),
    Call::ReadIfValueCased(b'1'),
    Call::SkipZeros,
    Call::TakeN(0),
    Call::TakeN(1),
    Call::TakeN(usize::MAX),
    Call::DigitRun,
];

type Groups = BTreeMap<u32, Group>;

pub fn run(report: &mut Report) {
    let mut groups: Groups = NAMES
        .map(|(number, name)| (number, Group::new(format!("refusals, {name}"))))
        .into();
    for word in words() {
        for buffer in BUFFERS {
            for reader in READERS {
                compare_states(&mut groups, word, buffer, reader);
            }
        }
    }
    for reader in SPECIAL + 1..=255 {
        for word in [DECIMAL, consecutive_alone()] {
            compare_states(&mut groups, word, b"1_2", reader);
        }
    }
    for buffer in BUFFERS {
        for reader in 0..=255 {
            compare_plain(&mut groups, buffer, reader);
        }
    }
    for group in groups.into_values() {
        report.close(group);
    }
}

/// Each set of each counted reader, while the other two have the consecutive
/// flag alone: that may stop their own calls only.
fn words() -> impl Iterator<Item = Word> {
    COUNTED.into_iter().flat_map(|reader| {
        (0..16).map(move |set| {
            let own = reader_flags(reader, ILTC);
            let others = consecutive_alone().lo() & !own;
            DECIMAL.with_bits(others | reader_flags(reader, set))
        })
    })
}

pub fn consecutive_alone() -> Word {
    let flags = COUNTED.map(|reader| reader_flags(reader, C));
    DECIMAL.with_bits(flags.iter().sum::<u64>() | SPECIAL_SEPARATOR)
}

fn compare_states(groups: &mut Groups, word: Word, buffer: &[u8], reader: u8) {
    for cursor in cursors(buffer) {
        for integer in COUNTS {
            for fraction in COUNTS {
                for exponent in COUNTS {
                    let counts = [integer, fraction, exponent];
                    let case = Case {
                        word,
                        buffer,
                        state: State { cursor, counts },
                        reader,
                    };
                    compare_calls(groups, &case);
                    compare_count(groups, &case);
                }
            }
        }
    }
}

/// All within the buffer, and some past its end.
pub fn cursors(buffer: &[u8]) -> impl Iterator<Item = usize> {
    let past_the_end = [buffer.len() + 1, 1 << 32, usize::MAX - 1, usize::MAX];
    (0..=buffer.len()).chain(past_the_end)
}

fn compare_calls(groups: &mut Groups, case: &Case) {
    for call in CALLS {
        let number = due(case, call);
        compare_answer(groups, case, call, number, library::call(case, call));
    }
}

/// A digit run may also be refused for what it reads.
fn due(case: &Case, call: Call) -> u32 {
    match call {
        Call::DigitRun => ported::digit_run(case).number,
        _ => refusal::of_call(case, call),
    }
}

fn compare_count(groups: &mut Groups, case: &Case) {
    let number = refusal::of_count(case);
    let answer = library::current_count(case);
    let count = if number == ACCEPTED {
        answer.count
    } else {
        library::UNTOUCHED_NUMBER
    };
    let expected = CountAnswer {
        number,
        count,
        kept: true,
    };
    group_of(groups, number).agree(
        &format_args!("current_count, {case}"),
        ("library", answer),
        ("definition", expected),
    );
}

fn compare_plain(groups: &mut Groups, buffer: &[u8], reader: u8) {
    for cursor in cursors(buffer) {
        let counts = [0; 3];
        let case = Case {
            word: DECIMAL,
            buffer,
            state: State { cursor, counts },
            reader,
        };
        let number = refusal::of_plain_call(&case);
        for call in [Call::Peek, Call::Next] {
            let answer = library::plain_call(&case, call);
            compare_answer(groups, &case, call, number, answer);
        }
    }
}

/// Of a call that is due no refusal, only the number and what it keeps are
/// compared here.
fn compare_answer(groups: &mut Groups, case: &Case, call: Call, number: u32, answer: Answer) {
    let expected = if number == ACCEPTED {
        Answer {
            number,
            kept: true,
            ..answer
        }
    } else {
        Answer::refused(number, case.state)
    };
    group_of(groups, number).agree(
        &format_args!("{call}, {case}"),
        ("library", answer),
        ("definition", expected),
    );
}

fn group_of(groups: &mut Groups, number: u32) -> &mut Group {
    groups.get_mut(&number).expect("a group for each number")
}
