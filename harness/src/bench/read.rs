//! Reads one byte at the start of a cell, where it is the one asked for.

use lexical_util_format::iterator::{Bytes, DigitsIter};

use super::outcome::Outcome;
use super::singly::{ask, Singly, Work};
use super::table::{Rows, Set, Table, Unit};
use crate::readers::call::{Call, Case};
use crate::readers::library::RawState;
use crate::readers::port;
use crate::readers::sets::{I, ILTC, NONE};

/// The byte that is asked for.
pub struct Read(u8);

impl Work for Read {
    #[inline(always)]
    fn rust<const FORMAT: u128>(&self, cell: &[u8]) -> Outcome {
        let mut bytes = Bytes::<FORMAT>::new(cell);
        let byte = bytes.integer_iter().read_if_value_cased(self.0);
        Outcome::of_rust(&mut bytes, found(byte), usize::from(byte.is_some()))
    }

    #[inline(always)]
    fn port(&self, case: &mut Case) -> Outcome {
        let byte = port::read_if_value_cased(case, self.0).taken();
        Outcome::of_port(case, found(byte), usize::from(byte.is_some()))
    }

    /// The byte of a declined read is left out, since the crate tells none.
    #[inline(always)]
    fn library(&self, fresh: &RawState, cell: &[u8]) -> Outcome {
        let outcome = ask(Call::ReadIfValueCased(self.0), fresh, cell);
        Outcome {
            found: outcome.found * outcome.taken,
            ..outcome
        }
    }
}

fn found(byte: Option<u8>) -> usize {
    byte.map_or(0, |byte| 1 + usize::from(byte))
}

const SETS: &[Set] = &[("none", NONE), ("I", I), ("ILTC", ILTC)];

pub fn table() -> Table<Singly<Read>> {
    Table {
        title: "Read of one byte, one call for each cell",
        short: "read",
        unit: Unit::Call,
        rows: vec![
            rows("`1` of `1_204`", b'1', &[I]),
            rows("`x` of `1_204`", b'x', &[]),
        ],
    }
}

fn rows(name: &'static str, value: u8, charted: &'static [u32]) -> Rows<Singly<Read>> {
    Rows {
        name,
        kinds: vec!["1_204".into()],
        cells: 7000,
        passes: 100,
        sets: SETS,
        charted,
        sides: Singly(Read(value)),
    }
}
