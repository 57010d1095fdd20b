//! Every run of up to 40 separators at every place up to 16, whatever lies before
//! and behind it.

use super::compare;
use crate::group::{Group, Report};
use crate::readers::run_end::{one_bit_off, Search};

const LONGEST: usize = 40;

const LAST_PLACE: usize = 16;

/// A usual one; the lowest bit alone, the highest alone, all bits; and 0, which
/// stands for none.
const SEPARATORS: [u8; 5] = [b'_', 0x01, 0x80, 0xFF, 0];

pub fn run(report: &mut Report) {
    let mut group = Group::new(format!("run ends, up to {LONGEST} separators"));
    for separator in SEPARATORS {
        for behind in behind(separator) {
            for before in [separator, one_bit_off(separator, 0)] {
                compare_runs(&mut group, separator, before, &behind);
            }
        }
    }
    report.close(group);
}

/// Nothing; a byte that is a separator but for one bit, for each bit; and such a
/// byte with separators again behind it.
fn behind(separator: u8) -> Vec<Vec<u8>> {
    let others = (0..8).map(|bit| one_bit_off(separator, bit));
    let behind = others.flat_map(|other| [vec![other], [vec![other], vec![separator; 9]].concat()]);
    behind.chain([vec![]]).collect()
}

fn compare_runs(group: &mut Group, separator: u8, before: u8, behind: &[u8]) {
    for at in 0..=LAST_PLACE {
        for length in 0..=LONGEST {
            let buffer = [&vec![before; at], &vec![separator; length], behind].concat();
            let search = Search {
                buffer: &buffer,
                separator,
                at,
            };
            compare(group, &search);
        }
    }
}
