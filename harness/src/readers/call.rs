//! A reader call: which one it is, and what it is given.

use std::fmt;

use crate::word::Word;

pub const INTEGER: u8 = 0;
pub const FRACTION: u8 = 1;
pub const EXPONENT: u8 = 2;
pub const SPECIAL: u8 = 3;

/// The readers that have a count.
pub const COUNTED: [u8; 3] = [INTEGER, FRACTION, EXPONENT];

pub const READERS: [u8; 4] = [INTEGER, FRACTION, EXPONENT, SPECIAL];

/// What a call starts from, and what it leaves for the next one. The default
/// is the fresh state.
#[derive(Clone, Copy, PartialEq, Eq, Hash, Default)]
pub struct State {
    pub cursor: usize,
    pub counts: [usize; 3],
}

#[derive(Clone, Copy)]
pub enum Call {
    Peek,
    Next,
    /// `next` until the end, as one call.
    NextAll,
    ReadIf(ByteSet),
    ReadIfValueCased(u8),
    SkipZeros,
    TakeN(usize),
    /// Peeks and takes while the byte peeked is a digit, as one call.
    DigitRun,
}

/// 256 bits, lowest first.
#[derive(Clone, Copy)]
pub struct ByteSet(pub [u64; 4]);

/// What every call is given.
#[derive(Clone, Copy)]
pub struct Case<'a> {
    pub word: Word,
    pub buffer: &'a [u8],
    pub state: State,
    pub reader: u8,
}

/// A call in a list of calls.
#[derive(Clone, Copy)]
pub struct Step {
    pub reader: u8,
    pub call: Call,
}

impl<'a> Case<'a> {
    pub fn fresh(word: Word, buffer: &'a [u8], reader: u8) -> Self {
        Self {
            word,
            buffer,
            state: State::default(),
            reader,
        }
    }
}

impl ByteSet {
    pub const EMPTY: Self = Self([0; 4]);
    pub const ALL: Self = Self([u64::MAX; 4]);

    pub fn of(bytes: impl IntoIterator<Item = u8>) -> Self {
        bytes.into_iter().fold(Self::EMPTY, |mut set, byte| {
            set.0[usize::from(byte / 64)] |= 1 << (byte % 64);
            set
        })
    }

    pub fn contains(self, byte: u8) -> bool {
        self.0[usize::from(byte / 64)] >> (byte % 64) & 1 == 1
    }
}

impl Call {
    pub const NAMES: [&'static str; 8] = [
        "peek",
        "next",
        "next_all",
        "read_if",
        "read_if_value_cased",
        "skip_zeros",
        "take_n",
        "digit_run",
    ];

    /// The place of this call's name.
    pub fn kind(self) -> usize {
        match self {
            Self::Peek => 0,
            Self::Next => 1,
            Self::NextAll => 2,
            Self::ReadIf(_) => 3,
            Self::ReadIfValueCased(_) => 4,
            Self::SkipZeros => 5,
            Self::TakeN(_) => 6,
            Self::DigitRun => 7,
        }
    }
}

impl fmt::Display for Case<'_> {
    fn fmt(&self, out: &mut fmt::Formatter<'_>) -> fmt::Result {
        write!(
            out,
            "reader {}, {}, \"{}\", {}",
            self.reader,
            self.word,
            self.buffer.escape_ascii(),
            self.state
        )
    }
}

impl fmt::Display for Call {
    fn fmt(&self, out: &mut fmt::Formatter<'_>) -> fmt::Result {
        out.write_str(Self::NAMES[self.kind()])?;
        match self {
            Self::ReadIf(ByteSet(set)) => write!(out, " of {set:016X?}"),
            Self::ReadIfValueCased(value) => write!(out, " of 0x{value:02X}"),
            Self::TakeN(n) => write!(out, " of {n}"),
            _ => Ok(()),
        }
    }
}

impl fmt::Display for State {
    fn fmt(&self, out: &mut fmt::Formatter<'_>) -> fmt::Result {
        write!(out, "cursor {} counts {:?}", self.cursor, self.counts)
    }
}
