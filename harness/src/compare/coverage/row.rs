//! The rows of the table: a flag set with the rule for the first or for later
//! separators, and the special reader's two, which know no later.

use std::fmt;

use crate::readers::call::{Case, INTEGER, SPECIAL};
use crate::readers::sets::{name, ILTC, NONE, SETS};
use crate::readers::words::{with_integer_flags, DECIMAL};
use crate::word::{Field, Word, SPECIAL_SEPARATOR};

#[derive(Clone, Copy)]
pub struct Row {
    pub set: u32,
    special: bool,
    /// Whether the reader's count is above 0.
    pub later: bool,
}

impl Row {
    /// Two for each of the sixteen sets, and the special reader's.
    pub const COUNT: usize = 2 * 16 + 2;

    pub fn of(case: &Case) -> Self {
        let special = case.reader == SPECIAL;
        Self {
            set: case.word.reader_set(case.reader),
            special,
            later: !special && case.state.counts[usize::from(case.reader)] > 0,
        }
    }

    /// All but those of the consecutive flag alone, which has no rule.
    pub fn all() -> impl Iterator<Item = Self> + Clone {
        let counted = SETS.into_iter().flat_map(|set| {
            [false, true].map(|later| Self {
                set,
                special: false,
                later,
            })
        });
        let special = [NONE, ILTC].map(|set| Self {
            set,
            special: true,
            later: false,
        });
        counted.chain(special)
    }

    pub fn place(self) -> usize {
        match self.special {
            true => 2 * 16 + usize::from(self.set != NONE),
            false => 2 * self.set as usize + usize::from(self.later),
        }
    }

    /// A word and a reader of this row.
    pub fn example(self, separator: u8) -> (Word, u8) {
        let (word, reader) = match (self.special, self.set) {
            (false, set) => (with_integer_flags(set), INTEGER),
            (true, NONE) => (DECIMAL, SPECIAL),
            (true, _) => (DECIMAL.with_bits(SPECIAL_SEPARATOR), SPECIAL),
        };
        (word.with_field(Field::Separator, separator), reader)
    }
}

impl fmt::Display for Row {
    fn fmt(&self, out: &mut fmt::Formatter<'_>) -> fmt::Result {
        let rule = if self.later { "later" } else { "first" };
        match (self.special, self.set) {
            (false, NONE) => write!(out, "none {rule}"),
            (false, set) => write!(out, "{:<5}{rule}", name(set)),
            (true, NONE) => out.write_str("special off"),
            (true, _) => out.write_str("special on"),
        }
    }
}
