//! The table as lines of text.

use super::{arising, Coverage, Done, Row, Sides, NEIGHBOURS};

pub fn table(coverage: &Coverage) -> Vec<String> {
    let mut lines = vec![
        "P passed, k kept, . cannot arise, ? not hit, ! both; by the crate's answers".to_string(),
        "neighbours: - none, o other, d digit, s separator, b both digit and separator".to_string(),
        line("before", |before| format!("{before:<5}")),
        line("after", |_| {
            NEIGHBOURS.map(|after| after.to_string()).concat()
        }),
    ];
    lines.extend(Row::all().map(|row| {
        line(row, |before| {
            let letters = NEIGHBOURS.map(|after| letter(coverage, row, [before, after]));
            letters.into_iter().collect()
        })
    }));
    lines
}

/// A heading, and five letters for each neighbour before.
fn line(heading: impl ToString, letters: impl Fn(super::Neighbour) -> String) -> String {
    let columns = NEIGHBOURS.map(letters).join("  ");
    format!("{:<13}{columns}", heading.to_string())
}

fn letter(coverage: &Coverage, row: Row, sides: Sides) -> char {
    match coverage.at(row, sides).done() {
        Done::Passed => 'P',
        Done::Kept => 'k',
        Done::Both => '!',
        Done::Nothing if arising::can_arise(row, sides) => '?',
        Done::Nothing => '.',
    }
}
