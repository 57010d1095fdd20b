//! Skips the zeros at the start of a cell.

use lexical_util_format::iterator::{Bytes, DigitsIter};

use super::outcome::Outcome;
use super::singly::{ask, Singly, Work};
use super::table::{Rows, Set, Table, Unit};
use crate::readers::call::{Call, Case};
use crate::readers::library::RawState;
use crate::readers::port;
use crate::readers::sets::{I, ILT, ILTC, NONE};

pub struct SkipZeros;

impl Work for SkipZeros {
    #[inline(always)]
    fn rust<const FORMAT: u128>(&self, cell: &[u8]) -> Outcome {
        let mut bytes = Bytes::<FORMAT>::new(cell);
        let zeros = bytes.integer_iter().skip_zeros();
        Outcome::of_rust(&mut bytes, zeros, zeros)
    }

    #[inline(always)]
    fn port(&self, case: &mut Case) -> Outcome {
        let zeros = port::skip_zeros(case);
        Outcome::of_port(case, zeros, zeros)
    }

    #[inline(always)]
    fn library(&self, fresh: &RawState, cell: &[u8]) -> Outcome {
        ask(Call::SkipZeros, fresh, cell)
    }
}

const ORDINARY_SETS: &[Set] = &[("none", NONE), ("I", I), ("ILTC", ILTC)];

/// Those that pass a separator between two zeros.
const PASSING_SETS: &[Set] = &[("I", I), ("ILT", ILT), ("ILTC", ILTC)];

pub fn table() -> Table<Singly<SkipZeros>> {
    let mixed = ["1_204", "0000123", "0_00_0123"];
    Table {
        title: "Zero skip, one call for each cell",
        short: "zero skip",
        unit: Unit::Call,
        rows: vec![
            ordinary("`1_204`", ORDINARY_SETS, &["1_204"]),
            ordinary("`0000123`", ORDINARY_SETS, &["0000123"]),
            ordinary("`0_00_0123`", PASSING_SETS, &["0_00_0123"]),
            Rows {
                charted: &[ILT],
                ..ordinary("7,000 cells, mixed", PASSING_SETS, &mixed)
            },
            Rows {
                charted: &[ILTC],
                ..long("300 zeros", ORDINARY_SETS, b"0")
            },
            long("300 zeros, a separator behind each", PASSING_SETS, b"0_"),
        ],
    }
}

fn ordinary(name: &'static str, sets: &'static [Set], kinds: &[&str]) -> Rows<Singly<SkipZeros>> {
    Rows {
        name,
        kinds: kinds.iter().map(|&kind| kind.into()).collect(),
        cells: 7000,
        passes: 60,
        sets,
        charted: &[],
        sides: Singly(SkipZeros),
    }
}

/// A text 300 times over, then a digit that ends the zeros.
fn long(name: &'static str, sets: &'static [Set], text: &[u8]) -> Rows<Singly<SkipZeros>> {
    Rows {
        name,
        kinds: vec![[text.repeat(300).as_slice(), b"1"].concat()],
        cells: 64,
        passes: 100,
        sets,
        charted: &[],
        sides: Singly(SkipZeros),
    }
}
