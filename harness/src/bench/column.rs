//! Takes every cell to its end, the whole column in one call. The crate has no
//! such call, and where the port is called for each cell, it makes none either.

use std::hint::black_box;

use super::cells::Cells;
use super::next_all::{self, NextAll};
use super::outcome::Outcome;
use super::sides::{checksum, Sides};
use super::singly::Work;
use super::table::{Rows, Table, Unit};
use crate::readers::call::{Case, INTEGER};
use crate::readers::column::Sums;
use crate::readers::sets::{I, IC, ILT, ILTC};
use crate::readers::words::DECIMAL;
use crate::readers::{library, port};
use crate::word::Word;

pub struct InOneCall;

impl Sides for InOneCall {
    fn rust<const FORMAT: u128>(&self, cells: &Cells) -> u64 {
        each(cells, |cell| NextAll.rust::<FORMAT>(cell))
    }

    fn rust_called<const FORMAT: u128>(&self, cells: &Cells) -> u64 {
        each(cells, |cell| NextAll.rust_called::<FORMAT>(cell))
    }

    fn port(&self, word: Word, cells: &Cells) -> u64 {
        checksum_of(port::next_all_column(&black_box(cells).column(word)))
    }

    fn port_called(&self, word: Word, cells: &Cells) -> u64 {
        each(cells, |cell| {
            NextAll.port_called(&mut Case::fresh(word, cell, INTEGER))
        })
    }

    fn library(&self, word: Word, cells: &Cells) -> u64 {
        checksum_of(library::next_all_column(&black_box(cells).column(word)))
    }

    fn calls(&self, _word: Word, _cells: &Cells) -> usize {
        1
    }
}

/// The loop over the cells of a column where no call goes over all.
#[inline(never)]
fn each(cells: &Cells, work: impl Fn(&[u8]) -> Outcome) -> u64 {
    let column = black_box(cells).column(DECIMAL);
    let mut sums = Sums::default();
    for cell in column.cells() {
        let outcome = work(cell);
        sums.taken += outcome.taken;
        sums.passed += outcome.passed;
        sums.digits += outcome.count;
    }
    checksum_of(sums)
}

fn checksum_of(sums: Sums) -> u64 {
    checksum([sums.number as usize, sums.taken, sums.passed, sums.digits])
}

/// The mixed cells that are also taken singly.
pub fn table() -> Table<InOneCall> {
    Table {
        title: "Take to the end, the whole column in one call",
        short: "in one call",
        unit: Unit::Byte,
        rows: vec![Rows {
            charted: &[I, ILT, IC, ILTC],
            ..next_all::mixed(InOneCall)
        }],
    }
}
