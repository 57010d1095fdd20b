//! Places about the end of a buffer, and the last that there are.

use super::compare;
use crate::group::{Group, Report};
use crate::readers::run_end::Search;

/// Two eights and one byte more.
const LONGEST: usize = 17;

/// How far from a limit: more than eight bytes.
const NEAR: usize = 9;

pub fn run(report: &mut Report) {
    let mut group = Group::new("run ends, places at the limits");
    for separator in [b'_', 0] {
        for length in 0..=LONGEST {
            let buffer = vec![separator; length];
            for at in places(length) {
                let search = Search {
                    buffer: &buffer,
                    separator,
                    at,
                };
                compare(&mut group, &search);
            }
        }
    }
    report.close(group);
}

/// About the end, and where a place and a few bytes more come to more than a
/// number holds, or to more than a signed one does.
fn places(length: usize) -> impl Iterator<Item = usize> {
    let highest_bit = isize::MAX as usize;
    let near_end = length.saturating_sub(NEAR)..=length + NEAR;
    let near_highest_bit = highest_bit - NEAR..=highest_bit + NEAR;
    near_end
        .chain(near_highest_bit)
        .chain(usize::MAX - LONGEST - NEAR..=usize::MAX)
}
