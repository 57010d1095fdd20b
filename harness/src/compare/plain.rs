//! The plain reader, beside the crate's build without `format`. It has a cursor
//! alone: in its cases the word plays no part and the counts are 0.

#![allow(unsafe_code)]

use lexical_util_plain::iterator::{Bytes, DigitsIter, Iter};

use super::small::{self, alphabet, for_each_buffer};
use crate::group::{Group, Report};
use crate::readers::answer::{Answer, Found};
use crate::readers::call::{Call, Case, State, EXPONENT, FRACTION, INTEGER, READERS, SPECIAL};
use crate::readers::words::DECIMAL;
use crate::readers::{draw, library};
use crate::rng::Rng;

const LONGEST: usize = 40;

/// Buffers drawn at random.
const BUFFERS: u32 = 20_000;

pub fn run(report: &mut Report, seed: u64) {
    let mut group = Group::new("plain reader, small buffers");
    for_each_buffer(alphabet(DECIMAL), small::LONGEST, &mut |buffer| {
        compare(&mut group, buffer);
    });
    report.close(group);

    let mut group = Group::new("plain reader, random buffers");
    let mut rng = Rng::new(seed, "plain buffers");
    for _ in 0..BUFFERS {
        compare(&mut group, &draw::buffer(&mut rng, DECIMAL, LONGEST));
    }
    report.close(group);
}

/// Both calls by every reader, from every cursor.
fn compare(group: &mut Group, buffer: &[u8]) {
    for cursor in 0..=buffer.len() {
        for reader in READERS {
            let counts = [0; 3];
            let case = Case {
                word: DECIMAL,
                buffer,
                state: State { cursor, counts },
                reader,
            };
            for call in [Call::Peek, Call::Next] {
                group.agree(
                    &format_args!("{call}, {case}"),
                    ("library", library::plain_call(&case, call)),
                    ("Rust", oracle_call(&case, call)),
                );
            }
        }
    }
}

/// Any word would do: it is a parameter that the crate's plain reader ignores.
type PlainBytes<'a> = Bytes<'a, { DECIMAL.bits() }>;

fn oracle_call(case: &Case, call: Call) -> Answer {
    let State { cursor, counts } = case.state;
    assert!(cursor <= case.buffer.len(), "a cursor within the buffer");
    let mut bytes = PlainBytes::new(case.buffer);
    // SAFETY: the cursor is at most the buffer's length.
    unsafe { bytes.set_cursor(cursor) };
    let mut iter = match case.reader {
        INTEGER => bytes.integer_iter(),
        FRACTION => bytes.fraction_iter(),
        EXPONENT => bytes.exponent_iter(),
        SPECIAL => bytes.special_iter(),
        other => panic!("the crate has no reader {other}"),
    };
    let byte = match call {
        Call::Peek => iter.peek(),
        Call::Next => iter.next(),
        _ => panic!("the plain reader has no such call"),
    };
    let taken = usize::from(byte.is_some() && matches!(call, Call::Next));
    let found = Found::byte(byte.copied());
    let cursor = iter.cursor();
    Answer::new(case.state, found, taken, State { cursor, counts })
}
