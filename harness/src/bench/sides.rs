//! The sides that are timed, each going over all cells by the integer reader.
//! What a side answers is a checksum over all its answers.

use std::hint::black_box;

use super::cells::Cells;
use crate::readers::sets::*;
use crate::readers::words::with_integer_flags;
use crate::word::Word;

/// How the sides are named, in the order of `passes`.
pub const NAMES: [&str; 5] = ["Crate", "Crate called", "Port", "Port called", "Rattle"];

pub trait Sides {
    /// The crate with the word compiled in, inlined into the loop over the cells.
    fn rust<const FORMAT: u128>(&self, cells: &Cells) -> u64;
    /// The same, a real call for each.
    fn rust_called<const FORMAT: u128>(&self, cells: &Cells) -> u64;
    /// The plain port with the word at run time, which may be inlined.
    fn port(&self, word: Word, cells: &Cells) -> u64;
    /// The same, a real call for each.
    fn port_called(&self, word: Word, cells: &Cells) -> u64;
    fn library(&self, word: Word, cells: &Cells) -> u64;

    /// How many calls a pass of the library makes.
    fn calls(&self, word: Word, cells: &Cells) -> usize;
}

/// One pass of each side.
pub type Passes<'a> = [Box<dyn Fn() -> u64 + 'a>; NAMES.len()];

/// Under a word that has these flags for the integer reader.
pub fn passes<'a>(sides: &'a impl Sides, set: u32, cells: &'a Cells) -> Passes<'a> {
    let word = black_box(with_integer_flags(set));
    [
        Box::new(move || by_rust(sides, set, cells)),
        Box::new(move || by_rust_called(sides, set, cells)),
        Box::new(move || sides.port(word, cells)),
        Box::new(move || sides.port_called(word, cells)),
        Box::new(move || sides.library(word, cells)),
    ]
}

/// Calls what is compiled for a word that has these flags.
macro_rules! under {
    ($set:expr, $sides:ident.$side:ident($cells:ident)) => {
        under!($set, $sides.$side($cells), NONE I L IL T IT LT ILT IC LC ILC TC ITC LTC ILTC)
    };
    ($set:expr, $sides:ident.$side:ident($cells:ident), $($known:ident)*) => {
        match $set {
            $($known => $sides.$side::<{ with_integer_flags($known).bits() }>($cells),)*
            _ => panic!("the crate has no rule for these flags"),
        }
    };
}

fn by_rust(sides: &impl Sides, set: u32, cells: &Cells) -> u64 {
    under!(set, sides.rust(cells))
}

fn by_rust_called(sides: &impl Sides, set: u32, cells: &Cells) -> u64 {
    under!(set, sides.rust_called(cells))
}

/// One number of several, each with a weight of its own.
pub fn checksum<const N: usize>(sums: [usize; N]) -> u64 {
    sums.iter().fold(0, |sum, &number| {
        sum.wrapping_mul(31).wrapping_add(number as u64)
    })
}
