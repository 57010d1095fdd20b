//! Takes a block from the start of a cell.

use lexical_util_format::iterator::{Bytes, Iter};

use super::outcome::Outcome;
use super::singly::{ask, Singly, Work};
use super::table::{Rows, Set, Table, Unit};
use crate::readers::call::{Call, Case};
use crate::readers::library::RawState;
use crate::readers::port;
use crate::readers::sets::NONE;

/// The size of the block.
pub struct TakeN(usize);

impl Work for TakeN {
    #[inline(always)]
    fn rust<const FORMAT: u128>(&self, cell: &[u8]) -> Outcome {
        let mut bytes = Bytes::<FORMAT>::new(cell);
        let block = bytes.integer_iter().take_n(self.0);
        let part = block.map(|block| block.as_slice());
        let taken = part.map_or(0, <[u8]>::len);
        Outcome::of_rust(&mut bytes, found(cell, part), taken)
    }

    #[inline(always)]
    fn port(&self, case: &mut Case) -> Outcome {
        let part = port::take_n(case, self.0);
        let taken = part.map_or(0, <[u8]>::len);
        Outcome::of_port(case, found(case.buffer, part), taken)
    }

    #[inline(always)]
    fn library(&self, fresh: &RawState, cell: &[u8]) -> Outcome {
        ask(Call::TakeN(self.0), fresh, cell)
    }
}

fn found(cell: &[u8], part: Option<&[u8]>) -> usize {
    part.map_or(0, |part| {
        1 + part.as_ptr() as usize - cell.as_ptr() as usize
    })
}

/// With any flag there is no block: the compiler knows it of the crate's, and
/// leaves nothing to be timed.
const SETS: &[Set] = &[("none", NONE)];

pub fn table() -> Table<Singly<TakeN>> {
    Table {
        title: "Block take, one block for each cell",
        short: "block",
        unit: Unit::Call,
        rows: vec![
            rows("2 of `123456`", b"123456", 2),
            Rows {
                charted: &[NONE],
                ..rows("8 of `123456`", b"123456", 8)
            },
            rows("64 of 300 digits", &b"1".repeat(300), 64),
        ],
    }
}

fn rows(name: &'static str, kind: &[u8], n: usize) -> Rows<Singly<TakeN>> {
    Rows {
        name,
        kinds: vec![kind.to_vec()],
        cells: 4096,
        passes: 100,
        sets: SETS,
        charted: &[],
        sides: Singly(TakeN(n)),
    }
}
