//! Whether each rule was tried: it must have let a separator pass and kept one,
//! where it can, whatever the neighbours were.

use super::{all_sides, Coverage, Hits, Row};
use crate::group::{Group, Report};
use crate::readers::sets::{ILTC, ITC, L, LC, NONE};

impl Coverage {
    pub fn close_rules(&self, report: &mut Report) {
        let mut group = Group::new(format!("readers, {}, every rule tried", self.what));
        for row in Row::all().filter(|row| row.set != NONE) {
            let hits: Vec<Hits> = all_sides().map(|sides| self.at(row, sides)).collect();
            let passed = hits.iter().any(|hits| hits.passed > 0);
            let kept = hits.iter().any(|hits| hits.kept > 0);
            for (does, tried, possible) in [
                ("passed", passed, can_pass(row)),
                ("kept", kept, can_keep(row)),
            ] {
                group.agree(
                    &format_args!("{row}, {does}"),
                    ("tried", tried),
                    ("possible", possible),
                );
            }
        }
        report.close(group);
    }
}

/// Later, L and LC never pass.
fn can_pass(row: Row) -> bool {
    !(row.later && [L, LC].contains(&row.set))
}

/// Later, ITC always passes, and so does ILTC.
fn can_keep(row: Row) -> bool {
    row.set != ILTC && !(row.later && row.set == ITC)
}
