//! Zero skips, blocks and reads whose answers are written down here. Separator
//! `_`, radix 10, integer reader. The Rust is asked as well, so that a
//! wrong build of it cannot agree with a wrong library unseen.

use crate::group::{Group, Report};
use crate::readers::answer::{Answer, Found};
use crate::readers::call::{Call, Case, State, INTEGER};
use crate::readers::library;
use crate::readers::read::Read::{self, Declined, End, Taken};
use crate::readers::sets::{I, ILC, ILTC, L, NONE, T};
use crate::readers::words::{compiled_for_integer, with_integer_flags};

struct Written {
    case: Case<'static>,
    call: Call,
    answer: Answer,
}

pub fn run(report: &mut Report) {
    let mut group = Group::new("readers, written zero skips, blocks and reads");
    let written = zero_skips().into_iter().chain(blocks()).chain(reads());
    for Written { case, call, answer } in written {
        let rust = compiled_for_integer(case.word.reader_set(INTEGER));
        let input = format_args!("{call}, {case}");
        let written = ("written", answer);
        group.agree(&input, ("library", library::call(&case, call)), written);
        group.agree(&input, ("Rust", rust.call(&case, call)), written);
    }
    report.close(group);
}

fn zero_skips() -> [Written; 8] {
    [
        zero_skip(b"", NONE, 0, 0),
        // Zeros are counted without flags too.
        zero_skip(b"000123", NONE, 3, 3),
        zero_skip(b"0_01", NONE, 1, 1),
        zero_skip(b"0_01", I, 2, 3),
        // No digit stands before the separator.
        zero_skip(b"_0", I, 0, 0),
        // The read that fails passes a separator, and that stays.
        zero_skip(b"_1", L, 0, 1),
        // Behind a zero that was counted the rule for later ones holds.
        zero_skip(b"0_", ILC, 1, 2),
        zero_skip(b"__0__0__", ILTC, 2, 8),
    ]
}

fn blocks() -> [Written; 7] {
    [
        block(b"123", NONE, 0, 2, Some(b"12")),
        // Fewer bytes than asked for.
        block(b"123", NONE, 1, 9, Some(b"23")),
        block(b"123", NONE, 1, usize::MAX, Some(b"23")),
        // Without flags a separator is a byte like others.
        block(b"1_23", NONE, 1, 2, Some(b"_2")),
        // A block of nothing is not the same as none.
        block(b"123", NONE, 2, 0, Some(b"")),
        block(b"123", NONE, 3, 1, Some(b"")),
        block(b"123", I, 0, 2, None),
    ]
}

fn reads() -> [Written; 9] {
    [
        read(b"", NONE, 0, b'0', End, 0),
        read(b"12", NONE, 0, b'1', Taken(b'1'), 1),
        // An optional sign that is not there.
        read(b"12", NONE, 0, b'-', Declined(b'1'), 0),
        read(b"1", NONE, 1, b'-', End, 1),
        // The passing stays in each of the three ways.
        read(b"1_2", I, 1, b'2', Taken(b'2'), 3),
        read(b"1_2", I, 1, b'0', Declined(b'2'), 2),
        read(b"1_", T, 1, b'0', End, 2),
        // What is not passed can be read, or is the byte seen.
        read(b"1_", I, 1, b'_', Taken(b'_'), 2),
        read(b"1_", I, 1, b'0', Declined(b'_'), 1),
    ]
}

/// From a fresh state: so many zeros, and where the cursor is then.
fn zero_skip(buffer: &'static [u8], set: u32, zeros: usize, cursor: usize) -> Written {
    let case = Case::fresh(with_integer_flags(set), buffer, INTEGER);
    let after = State {
        cursor,
        counts: [zeros, 0, 0],
    };
    Written {
        case,
        call: Call::SkipZeros,
        answer: Answer::new(case.state, Found::zeros(zeros), zeros, after),
    }
}

/// From a cursor: the bytes of the block, or none.
fn block(
    buffer: &'static [u8],
    set: u32,
    cursor: usize,
    n: usize,
    bytes: Option<&'static [u8]>,
) -> Written {
    let mut case = Case::fresh(with_integer_flags(set), buffer, INTEGER);
    case.state.cursor = cursor;
    let left = &buffer[cursor..];
    let part = bytes.map(|bytes| {
        assert!(left.starts_with(bytes), "the bytes stand at the cursor");
        &left[..bytes.len()]
    });
    let taken = part.map_or(0, <[u8]>::len);
    let mut after = case.state;
    after.cursor += taken;
    Written {
        case,
        call: Call::TakeN(n),
        answer: Answer::new(case.state, Found::block(buffer, part), taken, after),
    }
}

/// Behind so many digits that were counted: how the read ends, and where the
/// cursor is then.
fn read(
    buffer: &'static [u8],
    set: u32,
    digits: usize,
    value: u8,
    read: Read,
    cursor: usize,
) -> Written {
    let mut case = Case::fresh(with_integer_flags(set), buffer, INTEGER);
    let counts = [digits, 0, 0];
    case.state = State {
        cursor: digits,
        counts,
    };
    let after = State { cursor, counts };
    let taken = usize::from(read.taken().is_some());
    Written {
        case,
        call: Call::ReadIfValueCased(value),
        answer: Answer::new(case.state, Found::read(read), taken, after),
    }
}
