//! Digit runs whose answers are written down here, by the library, the crate and
//! the port.

use super::compare;
use crate::group::{Group, Report};
use crate::readers::answer::{Answer, Found};
use crate::readers::call::{Call, Case, State, EXPONENT, INTEGER};
use crate::readers::compiled::{Compiled, Readers};
use crate::readers::refusal::{ABOVE_64_BITS, NO_DIGIT};
use crate::readers::sets::{I, IL, L, NONE, T};
use crate::readers::words::{compiled_for_integer, DECIMAL};
use crate::word::{reader_flags, Field, Word};

struct Written {
    rust: &'static dyn Readers,
    reader: u8,
    buffer: &'static [u8],
    /// None where the run is refused.
    run: Option<Run>,
    number: u32,
}

/// From a fresh state.
struct Run {
    value: u64,
    taken: usize,
    cursor: usize,
    count: usize,
}

const fn in_radix(radix: u8) -> Word {
    DECIMAL.with_field(Field::MantissaRadix, radix)
}

/// A word that the check refuses: its separator is a digit.
const ZERO_SEPARATES: Word = in_radix(2)
    .with_field(Field::Separator, b'0')
    .with_bits(reader_flags(INTEGER, IL));

/// The exponent's digits are not those of its own radix.
const TWO_RADIXES: Word = DECIMAL
    .with_field(Field::ExponentRadix, 16)
    .with_bits(reader_flags(EXPONENT, I));

static RADIX_0: Compiled<{ in_radix(0).bits() }> = Compiled;
static RADIX_1: Compiled<{ in_radix(1).bits() }> = Compiled;
static RADIX_200: Compiled<{ in_radix(200).bits() }> = Compiled;
static TAKEN_BEHIND_ITS_PEEK: Compiled<{ ZERO_SEPARATES.bits() }> = Compiled;
static EXPONENT_OF_16: Compiled<{ TWO_RADIXES.bits() }> = Compiled;

pub fn run(report: &mut Report) {
    let mut group = Group::new("digit runs, examples");
    for written in decimal().into_iter().chain(others()) {
        let case = Case::fresh(written.rust.word(), written.buffer, written.reader);
        let due = written.answer(&case);
        compare(&mut group, &case, due);
        let crates = written.rust.call(&case, Call::DigitRun);
        group.agree(&case, ("Rust", crates), ("written", due));
    }
    report.close(group);
}

/// Each from a fresh state: value, taken, cursor, count.
fn decimal() -> [Written; 11] {
    [
        // The passing of a refused run does not stay.
        refused(L, b"_x", NO_DIGIT),
        refused(NONE, b"", NO_DIGIT),
        refused(I, b"x1", NO_DIGIT),
        // That of the last peek does.
        accepted(T, b"1_", 1, 1, 2, 1),
        accepted(I, b"1_204", 1204, 4, 5, 4),
        // The first other byte is not taken.
        accepted(I, b"12_00x", 1200, 4, 5, 4),
        accepted(I, b"12_x", 12, 2, 2, 2),
        // Without flags digits are taken and not counted.
        accepted(NONE, b"007_", 7, 3, 3, 0),
        accepted(NONE, b"18446744073709551615", u64::MAX, 20, 20, 0),
        refused(NONE, b"18446744073709551616", ABOVE_64_BITS),
        refused(I, b"1844674407370955161_50_", ABOVE_64_BITS),
    ]
}

/// Most under words that the check refuses.
fn others() -> [Written; 5] {
    let zeros = accepted(NONE, b"00x", 0, 2, 2, 0);
    // Peek and take each pass a separator, and the byte that is taken counts.
    let one = accepted(IL, b"001", 1, 1, 3, 1);
    let two_letters = accepted(NONE, b"zZ", 7035, 2, 2, 0);
    let until_a_letter = accepted(I, b"12A", 12, 2, 2, 2);
    [
        refused(NONE, b"0", NO_DIGIT).by(&RADIX_0),
        zeros.by(&RADIX_1),
        two_letters.by(&RADIX_200),
        one.by(&TAKEN_BEHIND_ITS_PEEK),
        Written {
            reader: EXPONENT,
            ..until_a_letter.by(&EXPONENT_OF_16)
        },
    ]
}

fn accepted(
    set: u32,
    buffer: &'static [u8],
    value: u64,
    taken: usize,
    cursor: usize,
    count: usize,
) -> Written {
    let run = Run {
        value,
        taken,
        cursor,
        count,
    };
    Written {
        run: Some(run),
        ..refused(set, buffer, 0)
    }
}

fn refused(set: u32, buffer: &'static [u8], number: u32) -> Written {
    Written {
        rust: compiled_for_integer(set),
        reader: INTEGER,
        buffer,
        run: None,
        number,
    }
}

impl Written {
    /// Under another word.
    fn by(self, rust: &'static dyn Readers) -> Self {
        Self { rust, ..self }
    }

    fn answer(&self, case: &Case) -> Answer {
        let Some(run) = &self.run else {
            return Answer::refused(self.number, case.state);
        };
        let mut after = State {
            cursor: run.cursor,
            counts: [0; 3],
        };
        after.counts[usize::from(self.reader)] = run.count;
        Answer::new(case.state, Found::there(run.value), run.taken, after)
    }
}
