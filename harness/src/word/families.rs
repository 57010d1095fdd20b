//! The families of words that the checks are compared on: some drawn at random,
//! some that go through every value of a part.

use super::draw::{accepted_word, likely_word, near_word, plain_accepted_word, uniform_word};
use super::{
    flag_bits, reader_flags, Field, Word, CONTROL_BYTES, FIELDS, PLAIN_FLAGS, RADIXES,
    SPECIAL_SEPARATOR,
};
use crate::rng::Rng;

/// What is done with each word of a family.
type Visit<'a> = &'a mut dyn FnMut(Word);

pub struct Family {
    pub name: &'static str,
    generate: fn(&mut Rng, Visit),
}

impl Family {
    /// The same seed gives the same words, whichever families run beside it.
    pub fn for_each(&self, seed: u64, visit: Visit) {
        (self.generate)(&mut Rng::new(seed, self.name), visit);
    }
}

const fn family(name: &'static str, generate: fn(&mut Rng, Visit)) -> Family {
    Family { name, generate }
}

pub const FAMILIES: [Family; 10] = [
    family("uniform words", uniform),
    family("likely words", likely),
    family("words near those the full check accepts", near_accepted),
    family(
        "words near those the plain check accepts",
        near_plain_accepted,
    ),
    family("every value of every field", field_values),
    family("every pair of flags", flag_pairs),
    family(
        "control bytes by mantissa and exponent radix",
        control_bytes_by_radix,
    ),
    family("triples of control bytes", control_byte_triples),
    family("separator flags of the readers", separator_flags),
    family("radixes around their bounds", radix_bounds),
];

fn uniform(rng: &mut Rng, visit: Visit) {
    (0..500_000).for_each(|_| visit(uniform_word(rng)));
}

fn likely(rng: &mut Rng, visit: Visit) {
    (0..600_000).for_each(|_| visit(likely_word(rng)));
}

fn near_accepted(rng: &mut Rng, visit: Visit) {
    for _ in 0..400_000 {
        let base = accepted_word(rng);
        visit(near_word(rng, base));
    }
}

fn near_plain_accepted(rng: &mut Rng, visit: Visit) {
    for _ in 0..200_000 {
        let base = plain_accepted_word(rng);
        visit(near_word(rng, base));
    }
}

fn field_values(rng: &mut Rng, visit: Visit) {
    for base in bases(rng) {
        for field in FIELDS {
            (0..=255).for_each(|value| visit(base.with_field(field, value)));
        }
    }
}

/// On each base as it is and without its flags. A flag paired with itself
/// stands for that flag alone.
fn flag_pairs(rng: &mut Rng, visit: Visit) {
    for base in bases(rng) {
        for word in [base, base.with_flags(0)] {
            for first in flag_bits() {
                for second in flag_bits().take_while(|&second| second <= first) {
                    visit(word.with_bits(1 << first | 1 << second));
                }
            }
        }
    }
}

/// A control byte may be no digit of the larger radix, so both radixes go
/// through all their allowed values, the absent exponent radix included.
fn control_bytes_by_radix(_: &mut Rng, visit: Visit) {
    for mantissa_radix in 2..=36 {
        for exponent_radix in (0..=36).filter(|&radix| radix != 1) {
            let base = Word::from_halves(PLAIN_FLAGS, 0)
                .with_field(Field::MantissaRadix, mantissa_radix)
                .with_field(Field::ExponentRadix, exponent_radix);
            for place in CONTROL_BYTES {
                (0..=255).for_each(|byte| visit(base.with_field(place, byte)));
            }
        }
    }
}

fn control_byte_triples(rng: &mut Rng, visit: Visit) {
    const BYTES: [u8; 12] = [
        0, b'_', b'\'', b',', b'.', b' ', b'x', b'h', b'b', b'0', b'+', 0x7F,
    ];
    for base in bases(rng) {
        for separator in BYTES {
            for prefix in BYTES {
                for suffix in BYTES {
                    visit(
                        base.with_field(Field::Separator, separator)
                            .with_field(Field::Prefix, prefix)
                            .with_field(Field::Suffix, suffix),
                    );
                }
            }
        }
    }
}

/// All sixteen sets of each counted reader, each with all of the other two and
/// with and without the special flag.
fn separator_flags(rng: &mut Rng, visit: Visit) {
    for base in bases(rng) {
        for sets in 0..16 * 16 * 16 {
            let flags = reader_flags(0, sets % 16)
                | reader_flags(1, sets / 16 % 16)
                | reader_flags(2, sets / 256);
            let word = base.with_flags(flags);
            visit(word);
            visit(word.with_bits(SPECIAL_SEPARATOR));
        }
    }
}

fn radix_bounds(rng: &mut Rng, visit: Visit) {
    let values = || (0..=40).chain([127, 128, 254, 255]);
    let bases = [accepted_word(rng), plain_accepted_word(rng)];
    for base in bases {
        for mantissa_radix in values() {
            for exponent_base in values() {
                for exponent_radix in values() {
                    let radixes = [mantissa_radix, exponent_base, exponent_radix];
                    visit(with_radixes(base, radixes));
                }
            }
        }
    }
}

fn with_radixes(word: Word, radixes: [u8; 3]) -> Word {
    RADIXES
        .iter()
        .zip(radixes)
        .fold(word, |word, (&field, radix)| word.with_field(field, radix))
}

/// Words that a check accepts, to be changed one part at a time: a few that
/// people would write, and more drawn at random.
fn bases(rng: &mut Rng) -> Vec<Word> {
    let mut bases = vec![
        // Radix 10, separator `_`, no flags.
        Word::from_halves(0, 0x0000_0A00_0000_005F),
        // Radix 10 throughout and the usual required digits.
        Word::from_halves(PLAIN_FLAGS, 0x0A0A_0A00_0000_0000),
        // Radix 16 with base 2, prefix `x`, suffix `h`, separator `_` inside.
        Word::from_halves(0x0000_0007_0000_000C, 0x0A02_1068_7800_005F),
        // Radix 2, prefix `b`, separators anywhere.
        Word::from_halves(0x0000_1FFF_0000_0000, 0x0A02_0200_6200_0027),
        // Radix 36, where every letter is a digit.
        Word::from_halves(PLAIN_FLAGS, 0x2424_2400_0000_0000),
    ];
    for _ in 0..12 {
        bases.push(accepted_word(rng));
        bases.push(plain_accepted_word(rng));
    }
    bases
}
