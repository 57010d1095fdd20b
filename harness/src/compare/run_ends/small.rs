//! Every small buffer over three bytes, from every place.

use super::compare;
use crate::compare::small::for_each_buffer;
use crate::group::{Group, Report};
use crate::readers::run_end::{one_bit_off, Search};

/// Enough for eight bytes at once, with a byte before and one behind.
const LONGEST: usize = 10;

/// The last stands for none.
const SEPARATORS: [u8; 3] = [b'_', 0xFF, 0];

pub fn run(report: &mut Report) {
    let mut group = Group::new(format!("run ends, buffers of up to {LONGEST} bytes"));
    for separator in SEPARATORS {
        for_each_buffer(alphabet(separator), LONGEST, &mut |buffer| {
            for at in (0..=buffer.len() + 1).chain([usize::MAX]) {
                let search = Search {
                    buffer,
                    separator,
                    at,
                };
                compare(&mut group, &search);
            }
        });
    }
    report.close(group);
}

/// The separator, a byte that is one but for a bit, and 0, or where that is the
/// separator another such byte.
fn alphabet(separator: u8) -> [u8; 3] {
    let third = match separator {
        0 => one_bit_off(separator, 7),
        _ => 0,
    };
    [separator, one_bit_off(separator, 0), third]
}
