//! The example that document 01 gives for the script, and its proved examples as
//! scripts. Separator `_`, radix 10, integer reader.

use super::{case, Case};
use crate::readers::call::INTEGER;
use crate::readers::sets::{I, IC, IL, ILC, ITC, L, LC, NONE, T};
use crate::readers::words::with_integer_flags;
use crate::script::records::Script;

/// Text, flags, takes before the two peeks: the second peek changes nothing.
const PEEKED: [(&str, &str, u32, usize); 11] = [
    ("A, and N by its open: empty, no flags", "", NONE, 0),
    ("B: _1, I", "_1", I, 0),
    ("C: _1, L", "_1", L, 0),
    ("D: __1, L", "__1", L, 0),
    ("E: __1, IL", "__1", IL, 0),
    ("F: __1, LC", "__1", LC, 0),
    ("G: 1_2, I, after one take", "1_2", I, 1),
    ("H: 1_, T, after one take", "1_", T, 1),
    ("J: 1__, ILC, after one take", "1__", ILC, 1),
    ("K: 1__, IC, after one take", "1__", IC, 1),
    ("L: 1_x, ITC, after one take", "1_x", ITC, 1),
];

pub fn cases() -> Vec<Case> {
    let mut cases = vec![case("the example of document 01", of_the_script())];
    for (name, text, set, takes) in PEEKED {
        let script = opened(text, set).takes(INTEGER, takes);
        let script = script.peek(INTEGER).peek(INTEGER);
        cases.push(case(format!("proved example {name}"), script));
    }
    let m = opened("1__2", I).takes(INTEGER, 3);
    cases.push(case("proved example M: 1__2, I, three takes", m));
    cases
}

fn opened(text: &str, set: u32) -> Script {
    Script::default()
        .text(text.as_bytes())
        .open(with_integer_flags(set))
}

/// The bytes as they are written there.
fn of_the_script() -> Script {
    Script(vec![
        0x00, 0x31, 0x00, 0x5F, 0x00, 0x32, // text
        0x01, 0x00, 0x00, 0x00, 0x00, 0x01, 0x00, 0x00, 0x00, // open, lower half
        0x5F, 0x00, 0x00, 0x00, 0x00, 0x0A, 0x00, 0x00, // upper half
        0x03, 0x00, 0x03, 0x00, 0x02, 0x00, // two takes and a peek
    ])
}
