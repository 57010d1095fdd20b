//! How single words are drawn at random.

use super::{flag_bits, oracle, Field, Word, CONTROL_BYTES, FIELDS, FLAGS, PLAIN_FLAGS, RADIXES};
use crate::rng::Rng;

/// Bytes at which a rule about control bytes or radixes may turn: none, signs,
/// digits of small and large radixes, and both sides of the bounds.
const TELLING_BYTES: [u8; 24] = [
    0, 1, 2, 8, 9, 10, 13, 14, 31, 32, 35, 36, 37, b'+', b'-', b'0', b'9', b'A', b'Z', b'z', 0x7E,
    0x7F, 0x80, 0xFF,
];

/// Few enough that two of the three control bytes are often equal.
const PUNCTUATION: [u8; 6] = [b'_', b'\'', b',', b' ', b'.', b'\t'];

/// Any 128 bits.
pub fn uniform_word(rng: &mut Rng) -> Word {
    Word::from_halves(rng.bits(), rng.bits())
}

/// Each part drawn apart and mostly allowed, so that many words get past the
/// radixes and fail late or not at all. The idle bits are drawn freely.
pub fn likely_word(rng: &mut Rng) -> Word {
    let flags = likely_flags(rng);
    let mut word = uniform_word(rng).with_flags(flags);
    for field in RADIXES {
        word = word.with_field(field, likely_radix(rng, field));
    }
    for field in CONTROL_BYTES {
        word = word.with_field(field, likely_control_byte(rng));
    }
    word
}

/// A word that the full check accepts.
pub fn accepted_word(rng: &mut Rng) -> Word {
    first_accepted(oracle::format_error, || likely_word(rng))
}

/// A word that the plain check accepts.
pub fn plain_accepted_word(rng: &mut Rng) -> Word {
    first_accepted(oracle::plain_format_error, || {
        let word = likely_word(rng).with_flags(PLAIN_FLAGS);
        CONTROL_BYTES
            .iter()
            .fold(word, |word, &field| word.with_field(field, 0))
    })
}

/// `word` with one to three of its fields and flags changed.
pub fn near_word(rng: &mut Rng, word: Word) -> Word {
    let changes = 1 + rng.below(3);
    (0..changes).fold(word, |word, _| changed_word(rng, word))
}

/// `word` with one field or one flag changed. A field may by chance be given
/// the value that it had.
pub fn changed_word(rng: &mut Rng, word: Word) -> Word {
    if rng.percent(50) {
        let flags: Vec<u32> = flag_bits().collect();
        return word.with_bit_flipped(rng.pick(&flags));
    }
    let value = match rng.below(3) {
        0 => rng.byte(),
        1 => rng.pick(&TELLING_BYTES),
        // Another field's value makes equal control bytes.
        _ => word.field(rng.pick(&FIELDS)),
    };
    word.with_field(rng.pick(&FIELDS), value)
}

fn first_accepted(check: fn(Word) -> u32, mut draw: impl FnMut() -> Word) -> Word {
    loop {
        let word = draw();
        if check(word) == 0 {
            return word;
        }
    }
}

/// Flags of three densities: each bit of them set with chance 1/2 or 1/4, or
/// the one set that the plain check accepts.
fn likely_flags(rng: &mut Rng) -> u64 {
    let flags = match rng.below(4) {
        0 => PLAIN_FLAGS,
        1 => rng.bits(),
        _ => rng.bits() & rng.bits(),
    };
    flags & FLAGS
}

fn likely_radix(rng: &mut Rng, field: Field) -> u8 {
    let may_be_absent = !matches!(field, Field::MantissaRadix);
    if may_be_absent && rng.percent(45) {
        0
    } else if rng.percent(90) {
        rng.byte_between(2, 36)
    } else {
        rng.byte()
    }
}

fn likely_control_byte(rng: &mut Rng) -> u8 {
    match rng.below(10) {
        0..=3 => 0,
        4..=7 => rng.pick(&PUNCTUATION),
        8 => rng.byte_between(b' ', b'~'),
        _ => rng.byte(),
    }
}
