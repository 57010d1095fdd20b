//! Named groups of comparisons, and the count of groups that passed.

use std::fmt::Display;
use std::process::ExitCode;

/// How many differences of a group are printed.
const SHOWN: usize = 5;

pub struct Group {
    name: String,
    compared: u64,
    different: u64,
    shown: Vec<String>,
}

impl Group {
    pub fn new(name: impl Into<String>) -> Self {
        Self {
            name: name.into(),
            compared: 0,
            different: 0,
            shown: Vec::new(),
        }
    }

    /// Compares two answers to the same input, each with the name of its giver,
    /// and tells whether they are equal.
    pub fn agree<T: PartialEq + Display>(
        &mut self,
        input: &dyn Display,
        (one_name, one): (&str, T),
        (other_name, other): (&str, T),
    ) -> bool {
        self.compared += 1;
        if one == other {
            return true;
        }
        self.different += 1;
        if self.shown.len() < SHOWN {
            let answers = format!("{one_name} {one}, {other_name} {other}");
            self.shown.push(format!("{input}: {answers}"));
        }
        false
    }
}

/// Runs some groups with a seed, and closes each.
pub type Groups = fn(&mut Report, u64);

#[derive(Default)]
pub struct Report {
    passed: u32,
    failed: u32,
    lines: Vec<String>,
}

impl Report {
    /// Tells and counts a finished group. One that compared nothing fails: it
    /// has shown nothing.
    pub fn close(&mut self, group: Group) {
        let passed = group.different == 0 && group.compared > 0;
        let verdict = if passed { "ok  " } else { "FAIL" };
        self.lines.push(format!(
            "{verdict} {}: {} compared, {} different",
            group.name, group.compared, group.different
        ));
        group.shown.into_iter().for_each(|line| self.tell(line));
        if passed {
            self.passed += 1;
        } else {
            self.failed += 1;
        }
    }

    /// Says something about the group closed last.
    pub fn tell(&mut self, line: String) {
        self.lines.push(format!("       {line}"));
    }

    /// Runs groups side by side, each with a report of its own, and tells of
    /// them in their order. Where one panics, so does this.
    pub fn of_all(all: &[Groups], seed: u64) -> Self {
        std::thread::scope(|scope| {
            let run = |groups: &Groups| {
                let groups = *groups;
                scope.spawn(move || {
                    let mut report = Self::default();
                    groups(&mut report, seed);
                    report
                })
            };
            let running: Vec<_> = all.iter().map(run).collect();
            let reports = running.into_iter().map(|one| one.join().expect("a group"));
            reports.fold(Self::default(), Self::and)
        })
    }

    fn and(mut self, other: Self) -> Self {
        self.passed += other.passed;
        self.failed += other.failed;
        self.lines.extend(other.lines);
        self
    }

    pub fn finish(self) -> ExitCode {
        for line in &self.lines {
            println!("{line}");
        }
        println!("harness: {} passed, {} failed", self.passed, self.failed);
        if self.failed == 0 {
            ExitCode::SUCCESS
        } else {
            ExitCode::FAILURE
        }
    }
}
