//! The catalogue of the Rattle static library.

#![allow(unsafe_code)]

use super::act::Act;
use super::lent::{Entry, Found};
use super::{Block, WORDS};
use crate::readers::answer::UNTOUCHED;

// Safe: a reference is a place for all that is read and written, and each is defined
// for every block. Those that only look are lent the block where they could write to
// it, to see that they do not.
unsafe extern "C" {
    safe fn pawhetino_catalogue_empty(c: &mut Block);
    safe fn pawhetino_catalogue_add(c: &mut Block, school: u16, lo: u64, hi: u64) -> u32;
    safe fn pawhetino_catalogue_remove(c: &mut Block, school: u16) -> u32;
    safe fn pawhetino_catalogue_find(c: &mut Block, school: u16, word: &mut [u64; 2]) -> u32;
    safe fn pawhetino_catalogue_separators(c: &mut Block) -> u64;
    safe fn pawhetino_catalogue_len(c: &mut Block) -> usize;
    safe fn pawhetino_catalogue_entry(c: &mut Block, i: usize, entry: &mut [u64; 3]) -> u32;
}

/// In a place that held something else.
pub fn empty() -> Block {
    let mut block = [UNTOUCHED; WORDS];
    make_empty(&mut block);
    block
}

pub fn make_empty(block: &mut Block) {
    pawhetino_catalogue_empty(block);
}

/// Inlined, as are look-ups, so that one who knows the act does not choose it again.
#[inline(always)]
pub fn act(block: &mut Block, act: Act) -> u32 {
    match act {
        Act::Add(school, word) => pawhetino_catalogue_add(block, school, word.lo(), word.hi()),
        Act::Remove(school) => pawhetino_catalogue_remove(block, school),
    }
}

#[inline(always)]
pub fn find(block: &mut Block, school: u16) -> Found {
    let mut found = Found::NOTHING;
    found.number = pawhetino_catalogue_find(block, school, &mut found.words);
    found
}

#[inline(always)]
pub fn separators(block: &mut Block) -> u64 {
    pawhetino_catalogue_separators(block)
}

pub fn len(block: &mut Block) -> usize {
    pawhetino_catalogue_len(block)
}

pub fn entry(block: &mut Block, i: usize) -> Entry {
    let mut entry = Entry::NOTHING;
    entry.number = pawhetino_catalogue_entry(block, i, &mut entry.words);
    entry
}
