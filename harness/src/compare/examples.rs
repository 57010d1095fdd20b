//! The thirteen examples of the definition, A to N without I, with the outcomes
//! written there. Separator `_`, radix 10, integer reader, from a fresh state.

use crate::group::{Group, Report};
use crate::readers::answer::{Answer, Found};
use crate::readers::call::{Call, Case, State, INTEGER};
use crate::readers::library;
use crate::readers::sets::{I, IC, IL, ILC, ITC, L, LC, NONE, T};
use crate::readers::words::{compiled_for_integer, with_integer_flags};
use crate::word::{library as checks, oracle};

/// A to L: some takes, then a peek, which may be repeated without effect.
struct Peeked {
    name: char,
    buffer: &'static [u8],
    set: u32,
    takes: u32,
    byte: Option<u8>,
    cursor: usize,
}

const fn peeked(
    name: char,
    buffer: &'static [u8],
    set: u32,
    takes: u32,
    byte: Option<u8>,
    cursor: usize,
) -> Peeked {
    Peeked {
        name,
        buffer,
        set,
        takes,
        byte,
        cursor,
    }
}

const PEEKED: [Peeked; 11] = [
    peeked('A', b"", NONE, 0, None, 0),
    peeked('B', b"_1", I, 0, Some(b'_'), 0),
    peeked('C', b"_1", L, 0, Some(b'1'), 1),
    peeked('D', b"__1", L, 0, Some(b'_'), 0),
    peeked('E', b"__1", IL, 0, Some(b'_'), 1),
    peeked('F', b"__1", LC, 0, Some(b'1'), 2),
    peeked('G', b"1_2", I, 1, Some(b'2'), 2),
    peeked('H', b"1_", T, 1, None, 2),
    peeked('J', b"1__", ILC, 1, None, 3),
    peeked('K', b"1__", IC, 1, Some(b'_'), 1),
    peeked('L', b"1_x", ITC, 1, Some(b'x'), 2),
];

/// The library or the crate.
type Ask<'a> = &'a dyn Fn(&Case, Call) -> Answer;

pub fn run(report: &mut Report) {
    let mut group = Group::new("examples A to N");
    for example in PEEKED {
        let rust = compiled_for_integer(example.set);
        compare_peeked(&mut group, &example, "library", &library::call);
        compare_peeked(&mut group, &example, "Rust", &|case, call| {
            rust.call(case, call)
        });
    }
    let rust = compiled_for_integer(I);
    compare_m(&mut group, "library", &library::call);
    compare_m(&mut group, "Rust", &|case, call| rust.call(case, call));
    compare_n(&mut group);
    report.close(group);
}

fn compare_peeked(group: &mut Group, example: &Peeked, asked: &str, ask: Ask) {
    let mut case = fresh(example.buffer, example.set);
    for _ in 0..example.takes {
        case.state = ask(&case, Call::Next).state;
    }
    let counts = case.state.counts;
    let cursor = example.cursor;
    for time in ["first", "second"] {
        let found = Found::byte(example.byte);
        let expected = Answer::new(case.state, found, 0, State { cursor, counts });
        let answer = ask(&case, Call::Peek);
        group.agree(
            &format_args!("{}, {time} peek", example.name),
            (asked, answer),
            ("written", expected),
        );
        case.state = answer.state;
    }
}

/// M: three takes, which pass one separator and count two digits.
fn compare_m(group: &mut Group, asked: &str, ask: Ask) {
    let mut case = fresh(b"1__2", I);
    for (byte, cursor, count) in [(b'1', 1, 1), (b'_', 2, 1), (b'2', 4, 2)] {
        let after = State {
            cursor,
            counts: [count, 0, 0],
        };
        let expected = Answer::new(case.state, Found::byte(Some(byte)), 1, after);
        let answer = ask(&case, Call::Next);
        group.agree(
            &format_args!("M, take to {cursor}"),
            (asked, answer),
            ("written", expected),
        );
        case.state = after;
    }
}

/// N: the full check of A's word.
fn compare_n(group: &mut Group) {
    let word = with_integer_flags(NONE);
    group.agree(
        &'N',
        ("library", checks::format_error(word)),
        ("written", 0),
    );
    group.agree(&'N', ("Rust", oracle::format_error(word)), ("written", 0));
}

fn fresh(buffer: &[u8], set: u32) -> Case<'_> {
    Case::fresh(with_integer_flags(set), buffer, INTEGER)
}
