//! The records of a call script, and how each is written: a byte of kind, then
//! a body of fixed length.

use crate::readers::call::{Call, Step};
use crate::word::Word;

pub const TEXT: u8 = 0;
pub const OPEN: u8 = 1;
pub const PEEK: u8 = 2;
pub const TAKE: u8 = 3;
pub const READ: u8 = 4;
pub const ZERO_SKIP: u8 = 5;
pub const BLOCK: u8 = 6;

/// The kinds that name a reader.
pub const CALLS: [u8; 5] = [PEEK, TAKE, READ, ZERO_SKIP, BLOCK];

/// How many bytes follow the kind, for each kind.
pub const BODIES: [usize; 7] = [1, 16, 1, 1, 2, 1, 5];

/// The most text bytes that a script may have.
pub const LONGEST_TEXT: usize = 4096;

/// A script in the making.
#[derive(Clone, Default)]
pub struct Script(pub Vec<u8>);

impl Script {
    pub fn text(mut self, text: &[u8]) -> Self {
        self.0.extend(text.iter().flat_map(|&byte| [TEXT, byte]));
        self
    }

    pub fn open(self, word: Word) -> Self {
        self.raw(&[OPEN]).raw(&word.bits().to_le_bytes())
    }

    pub fn peek(self, reader: u8) -> Self {
        self.raw(&[PEEK, reader])
    }

    pub fn take(self, reader: u8) -> Self {
        self.raw(&[TAKE, reader])
    }

    pub fn read(self, reader: u8, value: u8) -> Self {
        self.raw(&[READ, reader, value])
    }

    pub fn zero_skip(self, reader: u8) -> Self {
        self.raw(&[ZERO_SKIP, reader])
    }

    pub fn block(self, reader: u8, count: u32) -> Self {
        self.raw(&[BLOCK, reader]).raw(&count.to_le_bytes())
    }

    /// A call that has a record; of a block's size the lower 32 bits.
    pub fn call(self, Step { reader, call }: Step) -> Self {
        match call {
            Call::Peek => self.peek(reader),
            Call::Next => self.take(reader),
            Call::ReadIfValueCased(value) => self.read(reader, value),
            Call::SkipZeros => self.zero_skip(reader),
            Call::TakeN(n) => self.block(reader, n as u32),
            Call::NextAll | Call::ReadIf(_) | Call::DigitRun => panic!("a script has no {call}"),
        }
    }

    /// The same call several times.
    pub fn takes(self, reader: u8, times: usize) -> Self {
        (0..times).fold(self, |script, _| script.take(reader))
    }

    /// Any bytes, whole records or not.
    pub fn raw(mut self, bytes: &[u8]) -> Self {
        self.0.extend(bytes);
        self
    }

    pub fn then(self, other: &Self) -> Self {
        self.raw(&other.0)
    }
}

/// The kind of a call that a script can hold.
pub fn kind(call: Call) -> u8 {
    match call {
        Call::Peek => PEEK,
        Call::Next => TAKE,
        Call::ReadIfValueCased(_) => READ,
        Call::SkipZeros => ZERO_SKIP,
        Call::TakeN(_) => BLOCK,
        Call::NextAll | Call::ReadIf(_) | Call::DigitRun => panic!("a script has no {call}"),
    }
}

/// Whether a script can hold a call. A block's size has 32 bits there.
pub fn has_record(call: Call) -> bool {
    match call {
        Call::NextAll | Call::ReadIf(_) | Call::DigitRun => false,
        Call::TakeN(n) => u32::try_from(n).is_ok(),
        _ => true,
    }
}

/// A whole record.
pub enum Record {
    Text(u8),
    Open(Word),
    Call(Step),
}

/// Where one record ends and the next begins: the first record's length, which
/// is less than its kind asks for where the input ends in it. One of unknown
/// kind has no body.
pub fn length(input: &[u8]) -> usize {
    let body = input
        .first()
        .and_then(|&kind| BODIES.get(usize::from(kind)));
    input.len().min(1 + body.unwrap_or(&0))
}

/// Where the last record ends that is whole in the first `end` bytes.
pub fn whole_until(input: &[u8], end: usize) -> usize {
    let mut whole = 0;
    loop {
        let next = whole + length(&input[whole..]);
        if next == whole || next > end {
            return whole;
        }
        whole = next;
    }
}
