//! Every small buffer over five telling bytes, from every cursor.

use super::comparison::Comparison;
use crate::group::Report;
use crate::readers::call::{ByteSet, Call, Case, State, SPECIAL};
use crate::readers::compiled::Readers;
use crate::readers::library;
use crate::readers::words::{compiled, with_flags, without_flags};
use crate::word::{oracle, Field, Word};

/// The longest buffer that the gate goes through; each byte more takes five
/// times as long.
pub const LONGEST: usize = 5;

pub fn run(report: &mut Report, longest: usize) {
    let what = format!("buffers of up to {longest} bytes");
    let mut comparison = Comparison::new(&what, library::call);
    for &rust in compiled() {
        let word = rust.word();
        for reader in with_flags(word) {
            compare_reader(
                &mut comparison,
                rust,
                reader,
                longest,
                &calls(alphabet(word)),
            );
        }
        for reader in without_flags(word) {
            compare_reader(&mut comparison, rust, reader, longest, &CALLS_WITHOUT_FLAGS);
        }
    }
    comparison.close(report);
}

/// What is worth asking of a reader without flags, which passes nothing: the
/// call that raises its count all the same, the one that makes a value of digits
/// that it does not count, and the blocks that only it takes.
const CALLS_WITHOUT_FLAGS: [Call; 7] = [
    Call::SkipZeros,
    Call::DigitRun,
    Call::TakeN(0),
    Call::TakeN(1),
    Call::TakeN(3),
    Call::TakeN(LONGEST),
    Call::TakeN(usize::MAX),
];

fn compare_reader(
    comparison: &mut Comparison,
    rust: &'static dyn Readers,
    reader: u8,
    longest: usize,
    calls: &[Call],
) {
    let word = rust.word();
    let alphabet = alphabet(word);
    for_each_buffer(alphabet, longest, &mut |buffer| {
        for_each_case(word, buffer, reader, &mut |case| {
            for &call in calls {
                comparison.compare(rust, case, call);
            }
        });
    });
}

/// A digit, zero, the separator (where there is none, the byte 0 that stands
/// for none), a letter and a point. Where the word has two radixes, the letter
/// is a byte that is a digit in only one of them.
pub fn alphabet(word: Word) -> [u8; 5] {
    let separator = word.field(Field::Separator);
    let digit = if separator == b'1' { b'2' } else { b'1' };
    [digit, b'0', separator, letter(word), b'.']
}

fn letter(word: Word) -> u8 {
    let mantissa_radix = word.field(Field::MantissaRadix).into();
    let exponent_radix = match word.field(Field::ExponentRadix) {
        0 => mantissa_radix,
        radix => radix.into(),
    };
    (b'0'..=b'z')
        .find(|&byte| {
            oracle::char_is_digit_const(byte, mantissa_radix)
                != oracle::char_is_digit_const(byte, exponent_radix)
        })
        .unwrap_or(b'x')
}

fn calls([digit, _, separator, letter, _]: [u8; 5]) -> [Call; 11] {
    [
        Call::Peek,
        Call::Next,
        Call::NextAll,
        Call::ReadIf(ByteSet::EMPTY),
        Call::ReadIf(ByteSet::ALL),
        Call::ReadIf(ByteSet::of(b'0'..=b'9')),
        Call::ReadIf(ByteSet::of([separator])),
        Call::ReadIfValueCased(digit),
        Call::ReadIfValueCased(letter),
        Call::SkipZeros,
        Call::DigitRun,
    ]
}

/// A reader's cases on one buffer: from every cursor, with each of the counts.
pub fn for_each_case(word: Word, buffer: &[u8], reader: u8, visit: &mut dyn FnMut(&Case)) {
    for cursor in 0..=buffer.len() {
        for counts in counts(reader, cursor) {
            visit(&Case {
                word,
                buffer,
                state: State { cursor, counts },
                reader,
            });
        }
    }
}

/// No digits so far, one by this reader, one by another.
pub fn counts(reader: u8, cursor: usize) -> impl Iterator<Item = [usize; 3]> {
    let own = usize::from(reader % SPECIAL);
    let mut one = [0; 3];
    one[own] = 1;
    let mut other = [0; 3];
    other[(own + 1) % 3] = 1;
    let all = [[0; 3], one, other];
    all.into_iter().take(if cursor == 0 { 1 } else { 3 })
}

/// All buffers up to a length, the shorter ones first.
pub fn for_each_buffer<const LETTERS: usize>(
    alphabet: [u8; LETTERS],
    longest: usize,
    visit: &mut dyn FnMut(&[u8]),
) {
    for length in 0..=longest {
        for_each_of_length(alphabet, length, visit);
    }
}

pub fn for_each_of_length<const LETTERS: usize>(
    alphabet: [u8; LETTERS],
    length: usize,
    visit: &mut dyn FnMut(&[u8]),
) {
    let mut buffer = vec![0; length];
    for number in 0..alphabet.len().pow(length as u32) {
        let mut rest = number;
        for byte in &mut buffer {
            *byte = alphabet[rest % alphabet.len()];
            rest /= alphabet.len();
        }
        visit(&buffer);
    }
}
