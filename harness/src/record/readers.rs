//! Writes the crate's answers to reader calls as text, a call on a line:
//!
//! `R what lo hi buffer answer`, each a packed number of eight bytes.
//!
//! `what`, the highest byte first: kind, reader, the buffer's length, cursor,
//! integer, fraction and exponent count, value. Kinds: see `Kind`. The value is
//! that of a read or the size of a block, and 0 for other kinds.
//!
//! `answer` likewise: whether there is a byte or block (1 for a zero skip), the
//! byte or the number of zeros (0 where there is neither), cursor, passed, the
//! three counts, taken. For the part of a block it is instead the part's length
//! and then its bytes, the last byte lowest; for the value of a digit run that
//! whole number, and 0 where the run is refused. A digit run itself has the lowest
//! byte of its value in place of a byte; where it is refused, its answer begins with
//! 2 and the refusal's number. A read that is declined begins with 3 and the byte seen.
//!
//! `buffer` has its first byte lowest.

use std::io::{self, Write};

use super::packed::{packed_buffer, packed_numbers};
use crate::readers::answer::Answer;
use crate::readers::call::{Call, Case, COUNTED, READERS};
use crate::readers::refusal::ACCEPTED;
use crate::readers::words::compiled;
use crate::readers::{draw, refusal};
use crate::rng::Rng;

const LONGEST: usize = 8;

/// Lines for each kind and reader whose answer is telling, and of others.
const TELLING: usize = 48;
const OTHERS: usize = 32;

/// Lines for each way of a read to end, with passing and without, and each reader.
const OF_A_WAY: usize = 8;

/// Where a byte would be there or not.
const REFUSED: u64 = 2;
const DECLINED: u64 = 3;

#[derive(Clone, Copy)]
enum Kind {
    Peek = 0,
    Next = 1,
    ReadIfValueCased = 2,
    NextAll = 3,
    SkipZeros = 4,
    TakeN = 5,
    TakeNPart = 6,
    DigitRun = 7,
    DigitRunValue = 8,
}

const KINDS: [Kind; 9] = [
    Kind::Peek,
    Kind::Next,
    Kind::ReadIfValueCased,
    Kind::NextAll,
    Kind::SkipZeros,
    Kind::TakeN,
    Kind::TakeNPart,
    Kind::DigitRun,
    Kind::DigitRunValue,
];

pub fn write(out: &mut impl Write, seed: u64) -> io::Result<()> {
    let mut rng = Rng::new(seed, "record readers");
    for kind in KINDS {
        for &reader in kind.readers() {
            let is_other = |answer: &Answer| usize::from(!kind.is_telling(answer));
            write_lines(out, &mut rng, kind, reader, [TELLING, OTHERS], is_other)?;
        }
    }
    write_ways(out, seed)
}

/// Reads by the way that they end. They are drawn apart from the calls above, which
/// leaves those as they are.
fn write_ways(out: &mut impl Write, seed: u64) -> io::Result<()> {
    let mut rng = Rng::new(seed, "record reads");
    let kind = Kind::ReadIfValueCased;
    for &reader in kind.readers() {
        let way = |answer: &Answer| 2 * answer.found.how as usize + answer.passed.min(1);
        write_lines(out, &mut rng, kind, reader, [OF_A_WAY; 6], way)?;
    }
    Ok(())
}

/// As many lines of each class of answers as are wanted.
fn write_lines<const CLASSES: usize>(
    out: &mut impl Write,
    rng: &mut Rng,
    kind: Kind,
    reader: u8,
    mut wanted: [usize; CLASSES],
    class: impl Fn(&Answer) -> usize,
) -> io::Result<()> {
    while wanted.iter().any(|&lines| lines > 0) {
        let rust = rng.pick(compiled());
        let word = rust.word();
        let buffer = draw::buffer(rng, word, LONGEST);
        let case = Case {
            word,
            buffer: &buffer,
            state: draw::state(rng, &buffer),
            reader,
        };
        let value = kind.value(rng, &case);
        let call = kind.call(value);
        if refusal::of_call(&case, call) != ACCEPTED {
            continue;
        }
        let answer = rust.call(&case, call);
        let lines = &mut wanted[class(&answer)];
        if *lines > 0 {
            *lines -= 1;
            write_line(out, kind, value, &case, &answer)?;
        }
    }
    Ok(())
}

impl Kind {
    /// The readers that have such a call.
    fn readers(self) -> &'static [u8] {
        match self {
            Self::Peek | Self::Next | Self::ReadIfValueCased | Self::NextAll => &READERS,
            _ => &COUNTED,
        }
    }

    /// A value for a call of this kind.
    fn value(self, rng: &mut Rng, case: &Case) -> u8 {
        match self {
            Self::ReadIfValueCased => draw::value(rng, case.word, case.buffer),
            Self::TakeN | Self::TakeNPart => rng.below(LONGEST as u64 + 2) as u8,
            _ => 0,
        }
    }

    fn call(self, value: u8) -> Call {
        match self {
            Self::Peek => Call::Peek,
            Self::Next => Call::Next,
            Self::ReadIfValueCased => Call::ReadIfValueCased(value),
            Self::NextAll => Call::NextAll,
            Self::SkipZeros => Call::SkipZeros,
            Self::TakeN | Self::TakeNPart => Call::TakeN(value.into()),
            Self::DigitRun | Self::DigitRunValue => Call::DigitRun,
        }
    }

    /// Separators were passed, and zeros skipped if that was asked for; there is a
    /// block with something in it; or a value that one byte does not hold.
    fn is_telling(self, answer: &Answer) -> bool {
        let found = answer.found;
        match self {
            Self::SkipZeros => answer.passed > 0 && answer.taken > 0,
            Self::TakeN | Self::TakeNPart => answer.taken > 0,
            Self::DigitRunValue => answer.number == ACCEPTED && found.what > 0xFF,
            _ => answer.passed > 0,
        }
    }

    fn packed(self, case: &Case, answer: &Answer) -> u64 {
        let found = answer.found;
        match self {
            Self::SkipZeros => packed_answer(answer, 1, found.what),
            Self::TakeN => packed_answer(answer, found.how, 0),
            Self::TakeNPart if !found.is_there() => packed_part(&[]),
            Self::TakeNPart => packed_part(&case.buffer[found.what as usize..][..answer.taken]),
            Self::DigitRunValue if !found.is_there() => 0,
            Self::DigitRunValue => found.what,
            _ if answer.number != ACCEPTED => packed_answer(answer, REFUSED, answer.number.into()),
            _ if found.is_declined() => packed_answer(answer, DECLINED, found.what),
            _ if !found.is_there() => packed_answer(answer, 0, 0),
            _ => packed_answer(answer, 1, found.what & 0xFF),
        }
    }
}

fn write_line(
    out: &mut impl Write,
    kind: Kind,
    value: u8,
    case: &Case,
    answer: &Answer,
) -> io::Result<()> {
    let [integer, fraction, exponent] = case.state.counts;
    let what = [
        kind as usize,
        case.reader.into(),
        case.buffer.len(),
        case.state.cursor,
        integer,
        fraction,
        exponent,
        value.into(),
    ];
    writeln!(
        out,
        "R {:016X} {:016X} {:016X} {:016X} {:016X}",
        packed_numbers(what),
        case.word.lo(),
        case.word.hi(),
        packed_buffer(case.buffer),
        kind.packed(case, answer),
    )
}

fn packed_answer(answer: &Answer, is_there: u64, found: u64) -> u64 {
    let [integer, fraction, exponent] = answer.state.counts;
    packed_numbers([
        is_there as usize,
        found as usize,
        answer.state.cursor,
        answer.passed,
        integer,
        fraction,
        exponent,
        answer.taken,
    ])
}

/// Of a part of eight bytes the length is shifted out.
fn packed_part(part: &[u8]) -> u64 {
    part.iter().fold(part.len() as u64, |packed, &byte| {
        packed << 8 | u64::from(byte)
    })
}
