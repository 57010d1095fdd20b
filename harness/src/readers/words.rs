//! The words that the crate's readers are compiled for, five in a row.

use super::call::{COUNTED, EXPONENT, FRACTION, INTEGER, READERS};
use super::compiled::{Compiled, Readers};
use super::sets::{C, NONE, SETS};
use crate::word::{reader_flags, Field, Word, SPECIAL_SEPARATOR};

/// Separator `_`, radix 10, no flags.
pub const DECIMAL: Word = word_with(b'_', 10, 0);

const ROW: usize = 5;

/// Rows in which only the integer reader has flags. Here it has all sets.
const INTEGER_ROWS: usize = 3;

/// One row for each, with flags for all readers: a row has all sets, and over
/// three neighbouring rows each counted reader has.
const BASES: [Word; 21] = [
    DECIMAL,
    DECIMAL,
    DECIMAL,
    word_with(b'_', 2, 0),
    word_with(b'_', 8, 0),
    word_with(b'_', 16, 0),
    word_with(b'_', 36, 0),
    // No separator.
    word_with(0, 10, 0),
    // A letter, which in radix 16 is a digit too.
    word_with(b'a', 10, 0),
    word_with(b'a', 16, 0),
    // Exponent radixes, by which no reader goes.
    word_with(b'_', 10, 16),
    word_with(b'_', 16, 10),
    word_with(b'_', 2, 36),
    // Separators and radixes that the check refuses.
    word_with(b'1', 10, 0),
    word_with(b'0', 10, 0),
    word_with(b'+', 10, 0),
    word_with(0xFF, 10, 0),
    word_with(b'_', 0, 0),
    word_with(b'_', 1, 0),
    word_with(b'_', 200, 0),
    // Every bit set that no reader looks at.
    Word::from_halves(0xFFFF_E000_FFFF_FFFF, 0xFFFF_0AFF_FFFF_FF5F),
];

/// The last row has words in which one reader has the consecutive flag alone.
const ROWS: usize = INTEGER_ROWS + BASES.len() + 1;

const fn word_with(separator: u8, mantissa_radix: u8, exponent_radix: u8) -> Word {
    Word::from_halves(0, 0)
        .with_field(Field::Separator, separator)
        .with_field(Field::MantissaRadix, mantissa_radix)
        .with_field(Field::ExponentRadix, exponent_radix)
}

/// The decimal word with flags of the integer reader alone.
pub const fn with_integer_flags(set: u32) -> Word {
    DECIMAL.with_bits(reader_flags(INTEGER, set))
}

const fn word(row: usize, column: usize) -> Word {
    let index = ROW * row + column;
    if row < INTEGER_ROWS {
        with_integer_flags(SETS[index])
    } else if row < ROWS - 1 {
        mixed(BASES[row - INTEGER_ROWS], index)
    } else {
        one_consecutive_alone(column)
    }
}

/// The three sets lie apart, so that no reader can go by another's unseen.
const fn mixed(base: Word, index: usize) -> Word {
    let special = if index % 2 == 1 { SPECIAL_SEPARATOR } else { 0 };
    base.with_bits(
        reader_flags(INTEGER, SETS[index % 15])
            | reader_flags(FRACTION, SETS[(index + 5) % 15])
            | reader_flags(EXPONENT, SETS[(index + 10) % 15])
            | special,
    )
}

const fn one_consecutive_alone(column: usize) -> Word {
    DECIMAL.with_bits(
        reader_flags((column % 3) as u8, C)
            | reader_flags(((column + 1) % 3) as u8, SETS[1 + column])
            | reader_flags(((column + 2) % 3) as u8, SETS[14 - column])
            | SPECIAL_SEPARATOR,
    )
}

macro_rules! compile_rows {
    ($($row:literal)*) => {
        [$([
            &Compiled::<{ word($row, 0).bits() }>,
            &Compiled::<{ word($row, 1).bits() }>,
            &Compiled::<{ word($row, 2).bits() }>,
            &Compiled::<{ word($row, 3).bits() }>,
            &Compiled::<{ word($row, 4).bits() }>,
        ]),*]
    };
}

static COMPILED: [[&dyn Readers; ROW]; ROWS] =
    compile_rows!(0 1 2 3 4 5 6 7 8 9 10 11 12 13 14 15 16 17 18 19 20 21 22 23 24);

/// The crate's readers under every word.
pub fn compiled() -> &'static [&'static dyn Readers] {
    COMPILED.as_flattened()
}

/// The crate's readers under `with_integer_flags`, for one of `SETS`.
pub fn compiled_for_integer(set: u32) -> &'static dyn Readers {
    let place = SETS.iter().position(|&other| other == set);
    compiled()[place.expect("a set with a rule")]
}

/// The readers that can be called under a word.
pub fn callable(word: Word) -> impl Iterator<Item = u8> {
    READERS
        .into_iter()
        .filter(move |&reader| word.reader_set(reader) != C)
}

/// Those of them that can pass a separator.
pub fn with_flags(word: Word) -> impl Iterator<Item = u8> {
    callable(word).filter(move |&reader| word.reader_set(reader) != NONE)
}

/// Those that cannot, and count what they skip.
pub fn without_flags(word: Word) -> impl Iterator<Item = u8> {
    COUNTED
        .into_iter()
        .filter(move |&reader| word.reader_set(reader) == NONE)
}
