//! Which neighbours can arise in a row of the table.

use super::{all_sides, column, sides, Absent, DigitSeparator, Row, Separator, Sides, COLUMNS};
use crate::compare::small::for_each_buffer;
use crate::group::{Group, Report};
use crate::readers::sets::C;
use crate::readers::table::View;

/// A byte that is not there is neither a digit nor a separator, which is why a
/// neighbour has five cases and not eight. Of the pairs these cannot arise:
///
/// - with the consecutive flag a separator on either side: the neighbours are
///   then the nearest bytes that are none;
/// - a separator that is a digit on one side and one that is not on the other:
///   a word has one separator;
/// - without the consecutive flag, later and no byte before: a count above 0
///   is refused at cursor 0. (With that flag there may be a byte before the
///   cursor and yet none that is no separator.)
pub fn can_arise(row: Row, [before, after]: Sides) -> bool {
    let are_separators = [before, after].map(|side| [Separator, DigitSeparator].contains(&side));
    if row.set & C != 0 {
        return are_separators == [false, false];
    }
    let of_one_word = are_separators != [true, true] || before == after;
    let at_the_start = before == Absent;
    of_one_word && !(row.later && at_the_start)
}

/// Long enough for a byte before, a run of separators, and a byte behind.
const LONGEST: usize = 4;

/// A separator that is no digit, and one that is.
const SEPARATORS: [u8; 2] = [b'_', b'1'];

/// Holds `can_arise` to all states of all small buffers.
pub fn run(report: &mut Report) {
    let mut group = Group::new("readers, what can arise in the rule table");
    for row in Row::all() {
        let arises = arising_in_small_buffers(row);
        for sides in all_sides() {
            group.agree(
                &format_args!("{row}, before and after {sides:?}"),
                ("said to arise", can_arise(row, sides)),
                ("arises", arises[column(sides)]),
            );
        }
    }
    report.close(group);
}

fn arising_in_small_buffers(row: Row) -> [bool; COLUMNS] {
    let mut arises = [false; COLUMNS];
    for separator in SEPARATORS {
        let (word, reader) = row.example(separator);
        let alphabet = [b'2', separator, b'.', b'x', b'0'];
        for_each_buffer(alphabet, LONGEST, &mut |buffer| {
            let view = View::new(word, reader, buffer);
            for place in 0..buffer.len() {
                // A count above 0 that does not exceed the cursor.
                let admitted = !row.later || place > 0;
                if admitted && buffer[place] == separator {
                    arises[column(sides(&view, place))] = true;
                }
            }
        });
    }
    arises
}
