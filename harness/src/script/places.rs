//! Where in a script a record can stand: what is before it.

use super::records::Script;
use crate::readers::call::INTEGER;
use crate::readers::sets::{C, I};
use crate::readers::words::with_integer_flags;

pub struct Place {
    pub name: &'static str,
    pub before: Script,
    /// Whether a word was accepted, so that calls may follow.
    pub is_open: bool,
}

pub const TEXT: &[u8] = b"1_2";

/// At each of these something else may follow, so that a program may fail at one
/// of them alone.
pub fn places() -> [Place; 4] {
    let text = Script::default().text(TEXT);
    // The consecutive flag alone: 12.
    let refused = text.clone().open(with_integer_flags(C));
    let accepted = text.clone().open(with_integer_flags(I));
    [
        place("as the first record", Script::default(), false),
        place("after text", text, false),
        place("after a refused open", refused, false),
        place("after an accepted open", accepted.take(INTEGER), true),
    ]
}

fn place(name: &'static str, before: Script, is_open: bool) -> Place {
    Place {
        name,
        before,
        is_open,
    }
}
