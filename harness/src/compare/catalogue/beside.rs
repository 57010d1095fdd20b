//! A catalogue of the library's and a map, both empty at first, to which the same is
//! done.

use std::collections::BTreeSet;
use std::fmt::Display;

use super::agree_blocks;
use super::cases::Step;
use crate::catalogue::act::Act;
use crate::catalogue::lent::{Entry, Found};
use crate::catalogue::map::Map;
use crate::catalogue::{library, Block, Place, PER_PLACE, PLACES, WORDS};
use crate::group::Group;
use crate::readers::refusal::ACCEPTED;
use crate::word::Word;

#[derive(Clone)]
pub struct Beside {
    block: Block,
    pub map: Map,
    /// Schools that were once removed.
    removed: BTreeSet<u16>,
}

impl Beside {
    pub fn empty() -> Self {
        Self {
            block: library::empty(),
            map: Map::default(),
            removed: BTreeSet::new(),
        }
    }

    /// An act that may follow, with what is known before it.
    pub fn step(&self, act: Act) -> Step<'_> {
        Step {
            before: &self.map,
            act,
            number: self.map.due(act),
            was_removed: self.removed.contains(&act.school()),
        }
    }

    /// Does an act to both. What it returns is compared, how many are listed and use a
    /// separator then, and the whole block. Gives what is due.
    pub fn act(&mut self, group: &mut Group, input: &dyn Display, act: Act) -> u32 {
        let before = self.block;
        let number = library::act(&mut self.block, act);
        let due = self.map.act(act);
        group.agree(input, ("library", number), ("Rust", due));
        if due != ACCEPTED {
            agree_blocks(group, input, &self.block, ("before", &before));
        } else if let Act::Remove(school) = act {
            self.removed.insert(school);
        }
        self.compare_state(group, input);
        due
    }

    fn compare_state(&mut self, group: &mut Group, input: &dyn Display) {
        let len = library::len(&mut self.block);
        group.agree(
            &format_args!("{input}, how many are listed"),
            ("library", len),
            ("Rust", self.map.len()),
        );
        group.agree(
            &format_args!("{input}, how many use a separator"),
            ("library", library::separators(&mut self.block)),
            ("Rust", self.map.separators()),
        );
        agree_blocks(group, input, &self.block, ("Rust", &block_of(&self.map)));
    }

    /// The whole listing, entries behind it that are not there, and look-ups. None of
    /// these may change the block.
    pub fn compare_questions(&mut self, group: &mut Group, input: &dyn Display, schools: &[u16]) {
        let before = self.block;
        let listing: Vec<Place> = self.map.entries().map(place).collect();
        let beyond = [
            listing.len() + 1,
            PLACES - 1,
            PLACES,
            PLACES + 1,
            usize::MAX,
        ];
        for i in (0..=listing.len()).chain(beyond) {
            group.agree(
                &format_args!("{input}, entry {i}"),
                ("library", library::entry(&mut self.block, i)),
                ("Rust", Entry::of(listing.get(i).copied())),
            );
        }
        for &school in schools {
            group.agree(
                &format_args!("{input}, look-up of school {school}"),
                ("library", library::find(&mut self.block, school)),
                ("Rust", Found::of(self.map.find(school))),
            );
        }
        agree_blocks(group, input, &self.block, ("before", &before));
    }
}

fn place((school, word): (u16, Word)) -> Place {
    [school.into(), word.lo(), word.hi()]
}

/// The block that lists what a map has: ascending, with zeros behind.
fn block_of(map: &Map) -> Block {
    let mut block = [0; WORDS];
    block[0] = map.len() as u64;
    block[1] = map.separators();
    for (words, entry) in block[2..].chunks_mut(PER_PLACE).zip(map.entries()) {
        words.copy_from_slice(&place(entry));
    }
    block
}
