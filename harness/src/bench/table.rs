//! The tables of reader calls on columns of cells: which rows they have.

use super::cells::{self, Cells};
use super::sides::{passes, Passes, Sides};
use crate::readers::words::with_integer_flags;
use crate::rng::Rng;

/// Rows whose times are given for the same unit.
pub struct Table<S> {
    pub title: &'static str,
    /// How the chart names what the table times.
    pub short: &'static str,
    pub unit: Unit,
    pub rows: Vec<Rows<S>>,
}

/// The same cells under several sets of flags, a row for each.
pub struct Rows<S> {
    pub name: &'static str,
    pub kinds: Vec<Vec<u8>>,
    pub cells: usize,
    /// Passes over the cells in one round.
    pub passes: u32,
    pub sets: &'static [Set],
    /// The sets whose row is in the chart too.
    pub charted: &'static [u32],
    pub sides: S,
}

/// A set of flags with its name.
pub type Set = (&'static str, u32);

/// What a time is given for. Beside a byte's the medians of a cell's are given.
#[derive(Clone, Copy, PartialEq, Eq)]
pub enum Unit {
    Byte,
    Call,
}

/// One row, ready to be run.
pub struct Row<'a> {
    pub name: &'static str,
    pub flags: &'static str,
    pub is_charted: bool,
    pub cells: &'a Cells<'a>,
    /// Passes over the cells in one round.
    pub passes: u32,
    /// Calls that one pass of the library makes.
    pub calls: usize,
    pub sides: Passes<'a>,
}

impl<S: Sides> Table<S> {
    /// Rows of the same name and kinds have the same cells, in every table.
    pub fn for_each_row(&self, seed: u64, visit: &mut dyn FnMut(&Row)) {
        for rows in &self.rows {
            let drawn = cells::draw(&mut Rng::new(seed, rows.name), &rows.kinds, rows.cells);
            let buffer = drawn.concat();
            let cells = Cells::cut(&buffer, drawn.iter().map(|cell| cell.len()));
            for &(flags, set) in rows.sets {
                visit(&Row {
                    name: rows.name,
                    flags,
                    is_charted: rows.charted.contains(&set),
                    cells: &cells,
                    passes: rows.passes,
                    calls: rows.sides.calls(with_integer_flags(set), &cells),
                    sides: passes(&rows.sides, set, &cells),
                });
            }
        }
    }
}
