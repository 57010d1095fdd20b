//! What is done to a catalogue.

use std::fmt;

use crate::readers::refusal::ACCEPTED;
use crate::word::Word;

#[derive(Clone, Copy)]
pub enum Act {
    Add(u16, Word),
    Remove(u16),
}

impl Act {
    pub fn school(self) -> u16 {
        match self {
            Self::Add(school, _) | Self::Remove(school) => school,
        }
    }

    /// Whether it lists a school, answered so.
    pub fn adds(self, number: u32) -> bool {
        number == ACCEPTED && matches!(self, Self::Add(..))
    }

    /// Whether it takes one off the list, answered so.
    pub fn removes(self, number: u32) -> bool {
        number == ACCEPTED && matches!(self, Self::Remove(_))
    }
}

impl fmt::Display for Act {
    fn fmt(&self, out: &mut fmt::Formatter<'_>) -> fmt::Result {
        match self {
            Self::Add(school, word) => write!(out, "add school {school}, {word}"),
            Self::Remove(school) => write!(out, "remove school {school}"),
        }
    }
}
