//! What of the rule table a comparison has covered: which of its rules it has
//! tried, and with which neighbours of the separator. A library that is wrong
//! there alone is not seen otherwise. What a rule does is told from the crate's
//! answers.

mod arising;
mod row;
mod rules;
mod shown;

pub use arising::run as arising;

use std::fmt;

use self::row::Row;
use crate::group::{Group, Report};
use crate::readers::answer::Answer;
use crate::readers::call::{Call, Case};
use crate::readers::refusal::ACCEPTED;
use crate::readers::sets::C;
use crate::readers::table::View;

pub struct Coverage {
    what: String,
    hits: [[Hits; Row::COUNT]; COLUMNS],
}

/// How often the crate passed a separator in a cell of the table, and how often
/// it did not.
#[derive(Clone, Copy, Default)]
struct Hits {
    passed: u64,
    kept: u64,
}

/// What a rule can know of the byte on one side.
#[derive(Clone, Copy, Debug, PartialEq)]
enum Neighbour {
    Absent,
    /// Neither a digit nor a separator.
    Other,
    Digit,
    Separator,
    /// Both at once, where a word has a digit for its separator. The check
    /// refuses such a word, yet the calls answer under it.
    DigitSeparator,
}

use Neighbour::*;

const NEIGHBOURS: [Neighbour; 5] = [Absent, Other, Digit, Separator, DigitSeparator];

const COLUMNS: usize = NEIGHBOURS.len() * NEIGHBOURS.len();

/// The two sides of a separator.
type Sides = [Neighbour; 2];

impl Coverage {
    pub fn new(what: &str) -> Self {
        Self {
            what: what.to_string(),
            hits: [[Hits::default(); Row::COUNT]; COLUMNS],
        }
    }

    /// Takes note of the crate's answer to a peek at a separator.
    pub fn note(&mut self, case: &Case, call: Call, answer: &Answer) {
        if !matches!(call, Call::Peek) || answer.number != ACCEPTED {
            return;
        }
        let view = View::new(case.word, case.reader, case.buffer);
        let place = case.state.cursor;
        if !view.is_separator(view.at(place)) {
            return;
        }
        let hits = &mut self.hits[column(sides(&view, place))][Row::of(case).place()];
        match answer.passed {
            0 => hits.kept += 1,
            _ => hits.passed += 1,
        }
    }

    /// Every cell of the table that can arise was hit and no other, and the
    /// neighbours alone settle what it does.
    pub fn close_table(&self, report: &mut Report, shows_table: bool) {
        let mut group = Group::new(format!("readers, {}, rule table covered", self.what));
        for row in Row::all() {
            for sides in all_sides() {
                let done = self.at(row, sides).done();
                let arises = arising::can_arise(row, sides);
                let input = format_args!("{row}, before and after {sides:?}");
                group.agree(
                    &input,
                    ("hit", done != Done::Nothing),
                    ("can arise", arises),
                );
                group.agree(&input, ("does both", done == Done::Both), ("rule", false));
            }
        }
        report.close(group);
        report.tell(format!(
            "fewest hits of a cell of the table: {}",
            self.fewest()
        ));
        if shows_table {
            shown::table(self)
                .into_iter()
                .for_each(|line| report.tell(line));
        }
    }

    fn at(&self, row: Row, sides: Sides) -> Hits {
        self.hits[column(sides)][row.place()]
    }

    /// Of the cells that can arise.
    fn fewest(&self) -> u64 {
        let table = Row::all().flat_map(|row| all_sides().map(move |sides| (row, sides)));
        let hits = table
            .filter(|&(row, sides)| arising::can_arise(row, sides))
            .map(|(row, sides)| self.at(row, sides))
            .map(|Hits { passed, kept }| passed + kept);
        hits.min().unwrap_or(0)
    }
}

/// What the crate was seen to do in a cell of the table.
#[derive(PartialEq)]
enum Done {
    Nothing,
    Passed,
    Kept,
    Both,
}

impl Hits {
    fn done(self) -> Done {
        match (self.passed > 0, self.kept > 0) {
            (false, false) => Done::Nothing,
            (true, false) => Done::Passed,
            (false, true) => Done::Kept,
            (true, true) => Done::Both,
        }
    }
}

fn column([before, after]: Sides) -> usize {
    before as usize * NEIGHBOURS.len() + after as usize
}

fn all_sides() -> impl Iterator<Item = Sides> + Clone {
    NEIGHBOURS
        .into_iter()
        .flat_map(|before| NEIGHBOURS.map(|after| [before, after]))
}

/// What is known of the two sides of a place: of p and n, or with the
/// consecutive flag of P and N.
fn sides(view: &View, place: usize) -> Sides {
    let bytes = match view.set & C {
        0 => [view.at(place.wrapping_sub(1)), view.at(place + 1)],
        _ => [view.before_run(place), view.after_run(place)],
    };
    bytes.map(|byte| neighbour(view, byte))
}

fn neighbour(view: &View, byte: Option<u8>) -> Neighbour {
    match (view.is_digit(byte), view.is_separator(byte)) {
        _ if byte.is_none() => Absent,
        (false, false) => Other,
        (true, false) => Digit,
        (false, true) => Separator,
        (true, true) => DigitSeparator,
    }
}

impl fmt::Display for Neighbour {
    fn fmt(&self, out: &mut fmt::Formatter<'_>) -> fmt::Result {
        out.pad(match self {
            Absent => "-",
            Other => "o",
            Digit => "d",
            Separator => "s",
            DigitSeparator => "b",
        })
    }
}
