//! What a reader call answers.

use std::fmt;

use super::call::State;
use super::read::Read;

/// What a place holds that no call has written to.
pub const UNTOUCHED: u64 = 0xA5A5_A5A5_A5A5_A5A5;

/// All that a call answers, so that all of it is compared at once.
#[derive(Clone, Copy, PartialEq, Eq)]
pub struct Answer {
    /// 0, or why the call was refused.
    pub number: u32,
    pub found: Found,
    pub taken: usize,
    pub passed: usize,
    pub state: State,
    /// Whether what no call may change in a state is as it was.
    pub kept: bool,
}

/// What a call has found, as the first two numbers of its answer tell it.
#[derive(Clone, Copy, PartialEq, Eq)]
pub struct Found {
    /// 1 where there is a byte, a block or a value, 2 where a read declined the
    /// byte, else 0. A zero skip has none.
    pub how: u64,
    /// The byte, also a declined one, where the block begins in the buffer, how
    /// many zeros there were, or the value of a digit run.
    pub what: u64,
}

impl Answer {
    /// The answer of a call that was not refused: what it moved over without
    /// taking, it passed.
    pub fn new(before: State, found: Found, taken: usize, after: State) -> Self {
        Self {
            number: 0,
            found,
            taken,
            passed: after.cursor - before.cursor - taken,
            state: after,
            kept: true,
        }
    }

    /// The answer of a call that was refused: it changes nothing.
    pub fn refused(number: u32, state: State) -> Self {
        Self {
            number,
            found: Found::NOTHING,
            taken: 0,
            passed: 0,
            state,
            kept: true,
        }
    }
}

impl Found {
    pub const NOTHING: Self = Self {
        how: 0,
        what: UNTOUCHED,
    };

    pub fn byte(byte: Option<u8>) -> Self {
        byte.map_or(Self::NOTHING, |byte| Self::there(byte.into()))
    }

    pub fn read(read: Read) -> Self {
        match read {
            Read::End => Self::NOTHING,
            Read::Taken(byte) => Self::there(byte.into()),
            Read::Declined(byte) => Self {
                how: 2,
                what: byte.into(),
            },
        }
    }

    pub fn zeros(zeros: usize) -> Self {
        Self {
            how: 0,
            what: zeros as u64,
        }
    }

    /// A part of the buffer, or none. The place is told by the addresses.
    pub fn block(buffer: &[u8], part: Option<&[u8]>) -> Self {
        part.map_or(Self::NOTHING, |part| {
            Self::there((part.as_ptr() as usize - buffer.as_ptr() as usize) as u64)
        })
    }

    /// A byte, the place of a block or a value.
    pub fn there(what: u64) -> Self {
        Self { how: 1, what }
    }

    /// Whether there is a byte, a block or a value, and no declined byte.
    pub fn is_there(self) -> bool {
        self.how == 1
    }

    pub fn is_declined(self) -> bool {
        self.how == 2
    }
}

impl fmt::Display for Answer {
    fn fmt(&self, out: &mut fmt::Formatter<'_>) -> fmt::Result {
        write!(
            out,
            "(number {}, {}, taken {}, passed {}, {}",
            self.number, self.found, self.taken, self.passed, self.state
        )?;
        out.write_str(match self.kept {
            true => ")",
            false => ", and what is to be kept is not)",
        })
    }
}

impl fmt::Display for Found {
    fn fmt(&self, out: &mut fmt::Formatter<'_>) -> fmt::Result {
        match self.what {
            UNTOUCHED => write!(out, "found {} -", self.how),
            what => write!(out, "found {} 0x{what:02X}", self.how),
        }
    }
}

/// The answer of `current_count`.
#[derive(Clone, Copy, PartialEq, Eq)]
pub struct CountAnswer {
    pub number: u32,
    pub count: usize,
    /// Whether the whole state is as it was.
    pub kept: bool,
}

impl fmt::Display for CountAnswer {
    fn fmt(&self, out: &mut fmt::Formatter<'_>) -> fmt::Result {
        write!(
            out,
            "(number {}, count {}, state kept {})",
            self.number, self.count, self.kept
        )
    }
}
