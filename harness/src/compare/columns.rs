//! Columns of cells with ends drawn at random: the library's sums beside the
//! crate's, which has a fresh `Bytes` for each cell.

use crate::group::{Group, Report};
use crate::readers::call::{Call, Case, READERS, SPECIAL};
use crate::readers::column::{Column, Sums};
use crate::readers::compiled::Readers;
use crate::readers::refusal::ACCEPTED;
use crate::readers::words::compiled;
use crate::readers::{draw, library, port, refusal};
use crate::rng::Rng;

const LONGEST: usize = 60;

const MOST_CELLS: u64 = 12;

/// In the gate, for each reader of each word.
pub const COLUMNS: u32 = 1_500;

struct Comparison {
    sums: Group,
    refusals: Group,
    port: Group,
}

/// So many columns for each reader of each word.
pub fn run(report: &mut Report, seed: u64, columns: u32) {
    let mut comparison = Comparison {
        sums: Group::new("columns, every sum"),
        refusals: Group::new("columns, refusals 12 to 14 and 19"),
        port: Group::new("port that the benchmark times, columns"),
    };
    let mut rng = Rng::new(seed, "columns");
    for &rust in compiled() {
        for reader in READERS {
            for _ in 0..columns {
                comparison.draw(&mut rng, rust, reader);
            }
            comparison.compare_without_cells(rust, reader);
        }
        for unknown in SPECIAL + 1..=255 {
            comparison.draw(&mut rng, rust, unknown);
            comparison.compare_without_cells(rust, unknown);
        }
    }
    report.close(comparison.sums);
    report.close(comparison.refusals);
    report.close(comparison.port);
}

impl Comparison {
    fn draw(&mut self, rng: &mut Rng, rust: &dyn Readers, reader: u8) {
        let buffer = draw::buffer(rng, rust.word(), LONGEST);
        let ends = ends(rng, &buffer);
        self.compare(rust, &buffer, &ends, reader);
    }

    /// A column that is due a refusal is, even with no cell in it.
    fn compare_without_cells(&mut self, rust: &dyn Readers, reader: u8) {
        self.compare(rust, b"", &[], reader);
        self.compare(rust, b"1_2", &[], reader);
    }

    fn compare(&mut self, rust: &dyn Readers, buffer: &[u8], ends: &[usize], reader: u8) {
        let column = Column {
            word: rust.word(),
            buffer,
            ends,
            reader,
        };
        let number = refusal::of_call(&fresh(&column, b""), Call::NextAll);
        let answer = ("library", library::next_all_column(&column));
        if number != ACCEPTED {
            let nothing = Sums {
                number,
                ..Sums::default()
            };
            self.refusals
                .agree(&column, answer, ("definition", nothing));
            return;
        }
        let expected = ("Rust", sums(rust, &column));
        self.sums.agree(&column, answer, expected);
        let ported = ("port", port::next_all_column(&column));
        self.port.agree(&column, ported, expected);
    }
}

fn sums(rust: &dyn Readers, column: &Column) -> Sums {
    column.cells().fold(Sums::default(), |sums, cell| {
        let answer = rust.call(&fresh(column, cell), Call::NextAll);
        sums.and(&answer, column.reader)
    })
}

fn fresh<'a>(column: &Column, cell: &'a [u8]) -> Case<'a> {
    Case::fresh(column.word, cell, column.reader)
}

/// Ascending, descending or in any order.
fn ends(rng: &mut Rng, buffer: &[u8]) -> Vec<usize> {
    let cells = rng.below(MOST_CELLS + 1);
    let mut ends: Vec<usize> = (0..cells).map(|_| end(rng, buffer)).collect();
    match rng.below(5) {
        0..=2 => ends.sort_unstable(),
        3 => ends.sort_unstable_by(|one, other| other.cmp(one)),
        _ => {}
    }
    ends
}

/// Mostly within the buffer, else just past it or as far as can be.
fn end(rng: &mut Rng, buffer: &[u8]) -> usize {
    match rng.below(20) {
        0 => usize::MAX - rng.below(2) as usize,
        1 => buffer.len() + rng.below(3) as usize,
        _ => rng.below(buffer.len() as u64 + 1) as usize,
    }
}
