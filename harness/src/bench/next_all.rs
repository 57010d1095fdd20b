//! Takes to the end of a cell.

use lexical_util_format::iterator::Bytes;

use super::outcome::Outcome;
use super::singly::{ask, Singly, Work};
use super::table::{Rows, Set, Table, Unit};
use crate::readers::call::{Call, Case};
use crate::readers::library::RawState;
use crate::readers::port;
use crate::readers::sets::{I, IC, ILT, ILTC};

pub struct NextAll;

impl Work for NextAll {
    #[inline(always)]
    fn rust<const FORMAT: u128>(&self, cell: &[u8]) -> Outcome {
        let mut bytes = Bytes::<FORMAT>::new(cell);
        let mut iter = bytes.integer_iter();
        let mut taken = 0;
        while iter.next().is_some() {
            taken += 1;
        }
        Outcome::of_rust(&mut bytes, 0, taken)
    }

    #[inline(always)]
    fn port(&self, case: &mut Case) -> Outcome {
        let taken = port::next_all(case);
        Outcome::of_port(case, 0, taken)
    }

    #[inline(always)]
    fn library(&self, fresh: &RawState, cell: &[u8]) -> Outcome {
        ask(Call::NextAll, fresh, cell)
    }
}

pub const ORDINARY_SETS: &[Set] = &[("I", I), ("ILT", ILT), ("IC", IC), ("ILTC", ILTC)];

/// Ordinary cells.
pub fn table() -> Table<Singly<NextAll>> {
    Table {
        title: "Take to the end, one call for each cell",
        short: "singly",
        unit: Unit::Byte,
        rows: ordinary(|| NextAll),
    }
}

/// The rows of work that is done on ordinary cells singly.
pub fn ordinary<W>(work: impl Fn() -> W) -> Vec<Rows<Singly<W>>> {
    let cells: [(_, _, &[u32]); 3] = [
        ("`1_204`", "1_204", &[ILT]),
        ("`12_00`", "12_00", &[]),
        ("`123456`", "123456", &[ILT]),
    ];
    let of_a_kind = cells.map(|(name, kind, charted)| Rows {
        name,
        kinds: vec![kind.into()],
        charted,
        ..mixed(Singly(work()))
    });
    let of_all = Rows {
        charted: &[I, ILT, ILTC],
        ..mixed(Singly(work()))
    };
    of_a_kind.into_iter().chain([of_all]).collect()
}

/// The cells that are taken singly and as a column.
pub fn mixed<S>(sides: S) -> Rows<S> {
    Rows {
        name: "7,000 cells, mixed",
        kinds: ["1_204", "12_00", "123456"].map(Into::into).into(),
        cells: 7000,
        passes: 100,
        sets: ORDINARY_SETS,
        charted: &[],
        sides,
    }
}

/// Cells that are mostly separators.
pub fn table_of_runs() -> Table<Singly<NextAll>> {
    Table {
        title: "Take to the end, a run of separators in each cell",
        short: "run",
        unit: Unit::Byte,
        rows: vec![
            Rows {
                charted: &[IC, ILTC],
                ..long(
                    "300 separators, passed",
                    &[("IC", IC), ("ILTC", ILTC)],
                    b'2',
                )
            },
            Rows {
                kinds: vec![padded(4000, b'2')],
                cells: 16,
                charted: &[IC, ILTC],
                ..long(
                    "4,000 separators, passed",
                    &[("IC", IC), ("ILTC", ILTC)],
                    b'2',
                )
            },
            Rows {
                charted: &[I],
                ..long("300 separators, not passed", &[("I", I), ("IC", IC)], b'x')
            },
            Rows {
                kinds: vec![padded(4000, b'x')],
                cells: 1,
                passes: 1,
                charted: &[IC],
                ..long("4,000 separators, not passed", &[("IC", IC)], b'x')
            },
        ],
    }
}

fn long(name: &'static str, sets: &'static [Set], end: u8) -> Rows<Singly<NextAll>> {
    Rows {
        name,
        kinds: vec![padded(300, end)],
        cells: 64,
        passes: 20,
        sets,
        charted: &[],
        sides: Singly(NextAll),
    }
}

/// A digit, so many separators, an end.
fn padded(separators: usize, end: u8) -> Vec<u8> {
    [b"1", b"_".repeat(separators).as_slice(), &[end]].concat()
}
