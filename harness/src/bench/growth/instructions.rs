//! How many instructions each call takes: every call is made once.

use std::io;

use super::rows::{Row, LENGTHS, ROWS};
use super::Costs;
use crate::bench::callgrind;
use crate::readers::call::{Call, Case, INTEGER};
use crate::readers::library;
use crate::readers::words::with_integer_flags;

/// The function whose instructions are counted.
const FUNCTION: &str = "pawhetino_next_all";

/// The command of this program that makes the calls.
pub const COMMAND: &str = "growth-calls";

/// Makes every call once, in the order in which the counts are wanted.
pub fn make_calls() {
    for row in &ROWS {
        for &(_, set) in row.sets {
            for length in LENGTHS {
                let cell = (row.make)(length);
                let case = Case::fresh(with_integer_flags(set), &cell, INTEGER);
                library::call(&case, Call::NextAll);
            }
        }
    }
}

/// For each row and length the most of its sets.
pub fn count() -> io::Result<Vec<Costs>> {
    let calls = ROWS.iter().map(|row| row.sets.len() * LENGTHS.len()).sum();
    let counts = callgrind::count(COMMAND, FUNCTION, calls)?;
    let mut sets = counts.chunks_exact(LENGTHS.len());
    Ok(ROWS.iter().map(|row| most(row, &mut sets)).collect())
}

fn most<'a>(row: &Row, sets: &mut impl Iterator<Item = &'a [f64]>) -> Costs {
    let mut most = [0.0; LENGTHS.len()];
    for counts in sets.take(row.sets.len()) {
        for (most, &count) in most.iter_mut().zip(counts) {
            *most = f64::max(*most, count);
        }
    }
    most
}
