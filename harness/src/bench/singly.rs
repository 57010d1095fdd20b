//! Work that is done on one cell after the other.

use std::hint::black_box;

use super::cells::Cells;
use super::outcome::Outcome;
use super::sides::{checksum, Sides};
use crate::readers::call::{Call, Case, INTEGER};
use crate::readers::library::{self, RawState, EDITION};
use crate::readers::refusal::ACCEPTED;
use crate::word::Word;

/// What is done with one cell, from a fresh state.
pub trait Work {
    /// The crate's functions ask to be inlined, and so should these: the crate
    /// is timed as it is used.
    fn rust<const FORMAT: u128>(&self, cell: &[u8]) -> Outcome;

    /// The same behind a real call.
    #[inline(never)]
    fn rust_called<const FORMAT: u128>(&self, cell: &[u8]) -> Outcome {
        self.rust::<FORMAT>(cell)
    }

    fn port(&self, case: &mut Case) -> Outcome;

    /// The same behind a real call.
    #[inline(never)]
    fn port_called(&self, case: &mut Case) -> Outcome {
        self.port(case)
    }

    fn library(&self, fresh: &RawState, cell: &[u8]) -> Outcome;

    /// How many calls led to an outcome.
    fn calls(&self, _outcome: Outcome) -> usize {
        1
    }
}

/// The same work for each cell.
pub struct Singly<W>(pub W);

impl<W: Work> Sides for Singly<W> {
    fn rust<const FORMAT: u128>(&self, cells: &Cells) -> u64 {
        each(&cells.parts, |cell| self.0.rust::<FORMAT>(cell))
    }

    fn rust_called<const FORMAT: u128>(&self, cells: &Cells) -> u64 {
        each(&cells.parts, |cell| self.0.rust_called::<FORMAT>(cell))
    }

    fn port(&self, word: Word, cells: &Cells) -> u64 {
        each(&cells.parts, |cell| {
            self.0.port(&mut Case::fresh(word, cell, INTEGER))
        })
    }

    fn port_called(&self, word: Word, cells: &Cells) -> u64 {
        each(&cells.parts, |cell| {
            self.0.port_called(&mut Case::fresh(word, cell, INTEGER))
        })
    }

    fn library(&self, word: Word, cells: &Cells) -> u64 {
        let fresh = fresh(word);
        each(&cells.parts, |cell| self.0.library(&fresh, cell))
    }

    fn calls(&self, word: Word, cells: &Cells) -> usize {
        let fresh = fresh(word);
        let outcomes = cells.parts.iter().map(|cell| self.0.library(&fresh, cell));
        outcomes.map(|outcome| self.0.calls(outcome)).sum()
    }
}

/// What a caller copies for each cell.
fn fresh(word: Word) -> RawState {
    let mut state = [0; 8];
    let number = library::fresh(word, EDITION, &mut state);
    assert!(number == ACCEPTED, "a word that can be timed");
    state
}

/// One call of the library, as its callers make it.
#[inline(always)]
pub fn ask(call: Call, fresh: &RawState, cell: &[u8]) -> Outcome {
    let mut state = *fresh;
    let mut answer = [0; 4];
    let number = library::ask(call, cell, INTEGER, &mut state, &mut answer);
    assert!(number == ACCEPTED, "a call that can be timed");
    Outcome::of_library(&state, &answer)
}

/// Generic, so that nothing stands between the loop and the call; never inlined,
/// so that each side has one loop for all rounds. All that is added to a call is
/// sums that do not wait for each other: with a product carried from cell to cell
/// the crate's calls took no longer than it.
#[inline(never)]
fn each<'a>(cells: &[&'a [u8]], work: impl Fn(&'a [u8]) -> Outcome) -> u64 {
    let mut sums = [0; 5];
    for cell in black_box(cells) {
        for (sum, number) in sums.iter_mut().zip(work(cell).numbers()) {
            *sum += number;
        }
    }
    checksum(sums)
}
