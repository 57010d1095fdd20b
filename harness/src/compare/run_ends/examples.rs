//! Runs whose ends and steps are written down here, by the library and by the
//! count that other groups go by.

use crate::group::{Group, Report};
use crate::readers::library;
use crate::readers::run_end::{RunEnd, Search};

/// Separators behind one digit; where they end, steps over eight bytes, over one.
const WRITTEN: [[usize; 4]; 12] = [
    [0, 1, 0, 0],
    [1, 2, 0, 1],
    [7, 8, 0, 7],
    [8, 9, 1, 0],
    [9, 10, 1, 1],
    [15, 16, 1, 7],
    [16, 17, 2, 0],
    [17, 18, 2, 1],
    [63, 64, 7, 7],
    [64, 65, 8, 0],
    [300, 301, 37, 4],
    [4000, 4001, 500, 0],
];

pub fn run(report: &mut Report) {
    let mut group = Group::new("run ends, examples");
    for [separators, end, eights, ones] in WRITTEN {
        for behind in ["", "2", "2_"] {
            let buffer = ["1", &"_".repeat(separators), behind].concat();
            let search = Search {
                buffer: buffer.as_bytes(),
                separator: b'_',
                at: 1,
            };
            let written = ("written", RunEnd { end, eights, ones });
            group.agree(&search, ("library", library::run_end(&search)), written);
            group.agree(&search, ("counted", search.counted()), written);
        }
    }
    report.close(group);
}
