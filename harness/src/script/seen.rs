//! Which forms of lines the drawn scripts have brought about: a form that never
//! came was not tested.

use std::collections::BTreeSet;

use crate::group::{Group, Report};

#[derive(Default)]
pub struct Seen(BTreeSet<String>);

/// Opens answer 0 to 14; here are all other forms.
const FORMS: [&str; 19] = [
    "2 byte",
    "2 -",
    "3 byte",
    "3 -",
    "4 byte",
    "4 -",
    "5 0",
    "5 byte",
    "5 !18",
    "6 -",
    "6 none",
    "6 !18",
    "!19",
    "!20",
    "!21",
    "!22",
    "passed 0",
    "passed 1",
    "passed more",
];

impl Seen {
    pub fn note(&mut self, output: &[u8]) {
        for line in String::from_utf8_lossy(output).lines() {
            self.note_line(line);
        }
    }

    fn note_line(&mut self, line: &str) {
        let fields: Vec<&str> = line.split(' ').collect();
        match fields.as_slice() {
            [kind, shown, _, _, passed] => {
                let is_number = shown.parse::<u32>().is_ok_and(|number| number > 0);
                let shown = if is_number { "byte" } else { shown };
                self.0.insert(format!("{kind} {shown}"));
                let passed = if passed.len() > 1 || *passed > "1" {
                    "more"
                } else {
                    passed
                };
                self.0.insert(format!("passed {passed}"));
            }
            _ => {
                self.0.insert(line.to_owned());
            }
        }
    }

    pub fn close(self, report: &mut Report) {
        let mut group = Group::new("script program, every form of line seen");
        let opens = (0..=14).map(|number| format!("1 {number}"));
        for form in opens.chain(FORMS.map(str::to_owned)) {
            let seen = self.0.contains(&form);
            group.agree(&form, ("seen", seen), ("wanted", true));
        }
        report.close(group);
    }
}
