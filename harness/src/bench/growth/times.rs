//! How long each call takes, the crate's loop beside it.

use std::time::Instant;

use super::rows::{Row, LENGTHS, ROWS};
use super::Costs;
use crate::bench::cells::Cells;
use crate::bench::next_all::NextAll;
use crate::bench::sides::passes;
use crate::bench::singly::Singly;
use crate::bench::timing::{agree, time_in_turn};
use crate::readers::call::{Call, Case, INTEGER};
use crate::readers::library;
use crate::readers::words::with_integer_flags;

/// Nanoseconds a cell: the most of a row's sets, each a median.
#[derive(Default)]
pub struct Times {
    pub rust: Costs,
    pub rattle: Costs,
    /// Separators passed in the longest cell.
    pub passed: usize,
}

/// A round lasts about this long.
const ROUND: f64 = 1e6;

/// None where the two gave different answers.
pub fn measure() -> Option<Vec<Times>> {
    ROWS.iter().map(measure_row).collect()
}

fn measure_row(row: &Row) -> Option<Times> {
    let mut times = Times {
        passed: passed(row),
        ..Times::default()
    };
    for &(_, set) in row.sets {
        for (place, length) in LENGTHS.into_iter().enumerate() {
            let [rust, rattle] = measure_cell(&(row.make)(length), set)?;
            times.rust[place] = f64::max(times.rust[place], rust);
            times.rattle[place] = f64::max(times.rattle[place], rattle);
        }
    }
    Some(times)
}

/// Short cells lie there many times, so that what is around a call vanishes.
fn measure_cell(cell: &[u8], set: u32) -> Option<[f64; 2]> {
    let copies = LENGTHS[LENGTHS.len() - 1] / cell.len();
    let buffer = cell.repeat(copies);
    let cells = Cells::cut(&buffer, [cell.len()].repeat(copies).into_iter());
    let sides = Singly(NextAll);
    let [rust, .., rattle] = passes(&sides, set, &cells);
    let start = Instant::now();
    rattle();
    let passes = ROUND / start.elapsed().as_nanos() as f64;
    let timings = time_in_turn([&rust, &rattle], copies, passes.clamp(1.0, 1e4) as u32);
    agree(&timings).then(|| timings.map(|timing| timing.median()))
}

/// What all sets of a row pass of the longest cell: they would not belong into
/// one row if they parted.
fn passed(row: &Row) -> usize {
    let cell = (row.make)(LENGTHS[LENGTHS.len() - 1]);
    let mut answers = row.sets.iter().map(|&(_, set)| {
        let case = Case::fresh(with_integer_flags(set), &cell, INTEGER);
        library::call(&case, Call::NextAll).passed
    });
    let first = answers.next().expect("a row has sets");
    assert!(
        answers.all(|passed| passed == first),
        "the sets of a row do the same: {}, {}",
        row.cell,
        row.does
    );
    first
}
