//! The cells and flags that growth is measured for. A row has flags that do the
//! same with its cell: what they pass of it is checked to be the same.

use crate::bench::table::Set;
use crate::readers::sets::*;

pub const LENGTHS: [usize; 5] = [16, 64, 256, 1024, 4096];

pub struct Row {
    /// The cell as it is shown, and one of any length.
    pub cell: &'static str,
    pub make: fn(usize) -> Vec<u8>,
    /// What the reader does at a separator.
    pub does: &'static str,
    pub sets: &'static [Set],
    /// The colour of its lines, if it is drawn.
    pub colour: Option<&'static str>,
}

const fn row(
    cell: (&'static str, fn(usize) -> Vec<u8>),
    does: &'static str,
    sets: &'static [Set],
) -> Row {
    Row {
        cell: cell.0,
        make: cell.1,
        does,
        sets,
        colour: None,
    }
}

/// Gives each set of flags its name.
macro_rules! named {
    ($($set:ident)*) => { &[$((stringify!($set), $set)),*] };
}

type Cell = (&'static str, fn(usize) -> Vec<u8>);

const DIGITS: Cell = ("11..1", |length| b"1".repeat(length));

/// The last byte is a digit, so that each separator lies between two.
const SINGLE: Cell = ("1_1_..11", |length| {
    let mut cell = b"1_".repeat(length / 2);
    cell[length - 1] = b'1';
    cell
});

const BEFORE_LETTER: Cell = ("1__..x", |length| run(b"1", length, b"x"));
const BEFORE_DIGIT: Cell = ("1__..1", |length| run(b"1", length, b"1"));
const AT_START: Cell = ("__..1", |length| run(b"", length, b"1"));

fn run(start: &[u8], length: usize, end: &[u8]) -> Vec<u8> {
    let separators = length - start.len() - end.len();
    [start, &b"_".repeat(separators), end].concat()
}

const NONE_THERE: &str = "none there";
const PASSES_EACH: &str = "passes each";
const PASSES_ONE: &str = "passes one";
const PASSES_THE_RUN: &str = "passes the run";
const TAKES_EACH: &str = "takes each";

/// Whether a separator may be passed depends on the byte beyond the run, so that
/// a reader which looks for it at every take goes through the run every time.
const LOOKS_BEYOND: &str = "takes each, by the byte beyond the run";

pub const ROWS: [Row; 15] = [
    Row {
        colour: Some("#1f5fa8"),
        ..row(
            DIGITS,
            NONE_THERE,
            named!(I L T IL IT LT ILT IC LC TC ILC ITC LTC ILTC),
        )
    },
    Row {
        colour: Some("#b8860b"),
        ..row(SINGLE, PASSES_EACH, named!(I IL IT ILT IC ILC ITC ILTC))
    },
    row(SINGLE, TAKES_EACH, named!(L T LT LC TC LTC)),
    row(BEFORE_LETTER, TAKES_EACH, named!(I L IL LC)),
    row(BEFORE_LETTER, PASSES_ONE, named!(T IT LT ILT)),
    Row {
        colour: Some("#2e8b57"),
        ..row(BEFORE_LETTER, PASSES_THE_RUN, named!(TC ITC LTC ILTC))
    },
    Row {
        colour: Some("#c0392b"),
        ..row(BEFORE_LETTER, LOOKS_BEYOND, named!(IC ILC))
    },
    row(BEFORE_DIGIT, TAKES_EACH, named!(L T LT LC)),
    row(BEFORE_DIGIT, PASSES_ONE, named!(I IL IT ILT)),
    row(BEFORE_DIGIT, PASSES_THE_RUN, named!(IC ILC ITC ILTC)),
    row(BEFORE_DIGIT, LOOKS_BEYOND, named!(TC LTC)),
    row(AT_START, TAKES_EACH, named!(I L T IT LT ILT)),
    row(AT_START, PASSES_ONE, named!(IL)),
    row(AT_START, PASSES_THE_RUN, named!(LC ILC LTC ILTC)),
    row(AT_START, LOOKS_BEYOND, named!(IC TC ITC)),
];

impl Row {
    pub fn flags(&self) -> String {
        let names: Vec<&str> = self.sets.iter().map(|&(name, _)| name).collect();
        names.join(", ")
    }
}
