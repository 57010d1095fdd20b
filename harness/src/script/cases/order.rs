//! Records that are due several refusals: kind, length, reader byte, turn and
//! full text are tested in this order, and the first is told.

use super::{case, Case};
use crate::readers::call::INTEGER;
use crate::readers::sets::I;
use crate::readers::words::with_integer_flags;
use crate::script::records::{Script, BLOCK, LONGEST_TEXT, OPEN, PEEK, READ, TEXT};

pub fn cases() -> Vec<Case> {
    let none = Script::default;
    let open = || none().text(b"1_2").open(with_integer_flags(I));
    let full = || none().text(&[b'1'; LONGEST_TEXT]);
    let cases = [
        ("an unknown kind as the last byte: kind", none().raw(&[9])),
        ("an unknown kind with full text: kind", full().raw(&[9, 9])),
        ("cut, reader above 3: length", none().raw(&[READ, 4])),
        (
            "cut, reader above 3, after an open: length",
            open().raw(&[BLOCK, 9, 1, 0]),
        ),
        ("cut, call before an open: length", none().raw(&[PEEK])),
        ("cut, text after an open: length", open().raw(&[TEXT])),
        ("cut, open after an open: length", open().raw(&[OPEN, 0, 0])),
        ("cut, full text: length", full().raw(&[TEXT])),
        ("reader above 3, before an open: reader", none().peek(4)),
        ("reader above 3, full text: reader", full().peek(4)),
        ("call before an open, full text: turn", full().peek(INTEGER)),
        (
            "text after an open, full text: turn",
            full().open(with_integer_flags(I)).text(b"1"),
        ),
    ];
    cases
        .into_iter()
        .map(|(name, script)| case(format!("order: {name}"), script))
        .collect()
}
