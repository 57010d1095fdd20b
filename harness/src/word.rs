//! The 128-bit format word: where its fields and flags lie. Beside it, how words
//! are drawn, and who is asked about one: the library and the crate.

pub mod draw;
pub mod families;
pub mod library;
pub mod oracle;

use std::fmt;

#[derive(Clone, Copy, PartialEq, Eq)]
pub struct Word(u128);

/// A field of eight bits; the value is the place of its lowest bit.
#[derive(Clone, Copy)]
pub enum Field {
    Separator = 64,
    Prefix = 88,
    Suffix = 96,
    MantissaRadix = 104,
    ExponentBase = 112,
    ExponentRadix = 120,
}

pub const CONTROL_BYTES: [Field; 3] = [Field::Separator, Field::Prefix, Field::Suffix];

pub const RADIXES: [Field; 3] = [
    Field::MantissaRadix,
    Field::ExponentBase,
    Field::ExponentRadix,
];

pub const FIELDS: [Field; 6] = [
    Field::Separator,
    Field::Prefix,
    Field::Suffix,
    Field::MantissaRadix,
    Field::ExponentBase,
    Field::ExponentRadix,
];

/// The flags of the lower half: bits 0 to 17 and 32 to 44.
pub const FLAGS: u64 = 0x0000_1FFF_0003_FFFF;

/// The flags that the plain check asks for: bits 2 and 3.
pub const PLAIN_FLAGS: u64 = 0b1100;

/// Separators in special values are allowed.
pub const SPECIAL_SEPARATOR: u64 = 1 << 44;

impl Word {
    pub const fn from_halves(lo: u64, hi: u64) -> Self {
        Self((hi as u128) << 64 | lo as u128)
    }

    pub const fn from_bits(bits: u128) -> Self {
        Self(bits)
    }

    pub const fn bits(self) -> u128 {
        self.0
    }

    pub const fn lo(self) -> u64 {
        self.0 as u64
    }

    pub const fn hi(self) -> u64 {
        (self.0 >> 64) as u64
    }

    pub const fn field(self, field: Field) -> u8 {
        (self.0 >> field as u32) as u8
    }

    pub const fn with_field(self, field: Field, value: u8) -> Self {
        let cleared = self.0 & !(0xFF << field as u32);
        Self(cleared | (value as u128) << field as u32)
    }

    pub const fn with_bits(self, lo: u64) -> Self {
        Self(self.0 | lo as u128)
    }

    /// The same word with `flags` for its flags; the idle bits stay.
    pub const fn with_flags(self, flags: u64) -> Self {
        Self(self.0 & !(FLAGS as u128)).with_bits(flags)
    }

    pub const fn with_bit_flipped(self, bit: u32) -> Self {
        Self(self.0 ^ 1 << bit)
    }

    /// The separator flags of a reader as a set, see `reader_flags`. The
    /// special reader has all four or none.
    pub const fn reader_set(self, reader: u8) -> u32 {
        if reader == 3 {
            let allowed = self.lo() & SPECIAL_SEPARATOR != 0;
            return if allowed { 0b1111 } else { 0 };
        }
        let flags = (self.lo() >> (32 + reader)) as u32;
        (flags & 1) | (flags >> 2 & 2) | (flags >> 4 & 4) | (flags >> 6 & 8)
    }
}

impl fmt::Display for Word {
    fn fmt(&self, out: &mut fmt::Formatter<'_>) -> fmt::Result {
        write!(out, "lo 0x{:016X} hi 0x{:016X}", self.lo(), self.hi())
    }
}

/// The places of all flags, lowest first.
pub fn flag_bits() -> impl Iterator<Item = u32> + Clone {
    (0..64).filter(|bit| FLAGS >> bit & 1 == 1)
}

/// The four separator flags of a counted reader (0 integer, 1 fraction,
/// 2 exponent). In `set`, bit 0 is internal, 1 leading, 2 trailing and
/// 3 consecutive; in the word each of these has the three readers side by side.
pub const fn reader_flags(reader: u8, set: u32) -> u64 {
    let flags = (set & 1) | (set & 2) << 2 | (set & 4) << 4 | (set & 8) << 6;
    (flags as u64) << (32 + reader)
}
