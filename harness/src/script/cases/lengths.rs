//! Scripts that are longer than what a program may well read or write at a time,
//! and whose records do not end where such a block does.

use super::{case, Case};
use crate::readers::call::{INTEGER, SPECIAL};
use crate::readers::sets::I;
use crate::readers::words::with_integer_flags;
use crate::script::long::{bad_separator, BUFFER};
use crate::script::records::{Script, BLOCK};

const OPENS: usize = 4_000;

const CALLS: usize = 35_000;

pub fn cases() -> Vec<Case> {
    let opens = (0..OPENS).fold(Script::default(), |script, _| script.open(bad_separator()));
    let opened = |script: Script| script.text(b"1_2").open(with_integer_flags(I));
    let long = opened(Script::default()).takes(INTEGER, CALLS);
    vec![
        case(
            "68,000 bytes of opens, then a run",
            opened(opens.clone()).takes(INTEGER, 3),
        ),
        case(
            "68,000 bytes of opens, then one that is cut short",
            opens.raw(&[1, 0]),
        ),
        case("70,000 bytes of takes", long.clone().peek(INTEGER)),
        case(
            "70,000 bytes of takes, then a block that is cut short",
            long.clone().raw(&[BLOCK, INTEGER, 1, 0, 0]),
        ),
        case(
            "70,000 bytes of takes, then a reader above 3 with 70,000 bytes behind it",
            long.peek(SPECIAL + 1).takes(INTEGER, CALLS),
        ),
        case(
            "70,000 bytes behind a stop are not looked at",
            opened(Script::default())
                .raw(&[7])
                .raw(&[3; BUFFER + 4_464]),
        ),
    ]
}
