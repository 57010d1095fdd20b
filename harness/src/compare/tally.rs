//! The byte tally of the definition: what holds after every list of calls from
//! a fresh state, under a word that the check accepts. Here it is computed from
//! the crate's answers: what is proved of the library is seen to hold of it too.

use std::fmt;

use super::history::History;
use super::lists::{CALLS, LONGEST};
use crate::group::{Group, Report};
use crate::readers::answer::{Answer, Found};
use crate::readers::call::{Call, State, Step};
use crate::readers::compiled::{Part, Readers};
use crate::readers::draw;
use crate::readers::refusal::ACCEPTED;
use crate::readers::words::compiled;
use crate::rng::Rng;
use crate::word::oracle;

/// Lists for each word in the gate.
pub const LISTS: u32 = 300;

pub fn run(report: &mut Report, seed: u64, lists: u32) {
    let mut tally = Tally::new();
    let mut rng = Rng::new(seed, "byte tally");
    let accepted = compiled()
        .iter()
        .filter(|rust| oracle::format_error(rust.word()) == ACCEPTED);
    for &rust in accepted {
        for _ in 0..lists {
            let buffer = &draw::buffer(&mut rng, rust.word(), LONGEST);
            let calls = &draw::list(&mut rng, rust.word(), buffer, CALLS);
            tally.check(&List {
                rust,
                buffer,
                calls,
            });
        }
    }
    tally.close(report);
}

struct List<'a> {
    rust: &'a dyn Readers,
    buffer: &'a [u8],
    calls: &'a [Step],
}

/// A group for each thing that holds.
struct Tally {
    joined: Group,
    cursor: Group,
    runs: Group,
    counts: Group,
    zero_skips: Group,
    digit_runs: Group,
    peeks: Group,
}

impl Tally {
    fn new() -> Self {
        let group = |what| Group::new(format!("byte tally, Rust, {what}"));
        Self {
            joined: group("joined bytes are those before the cursor"),
            cursor: group("cursor is taken and passed together"),
            runs: group("runs are separators, from where the rule holds"),
            counts: group("counts are those of the history"),
            zero_skips: group("zero skip is its reads"),
            digit_runs: group("digit run is its peeks and takes"),
            peeks: group("peek put before a call changes nothing"),
        }
    }

    fn check(&mut self, list: &List) {
        let answers = list.rust.run(list.buffer, list.calls);
        let parts = list.rust.run_by_parts(list.buffer, list.calls);
        let mut history = History::new(list.rust.word(), list.buffer);
        for (place, answer) in answers.iter().enumerate() {
            self.check_parts(list, place, answer, &parts[place]);
            let reader = list.calls[place].reader;
            for &(call, part) in &parts[place] {
                self.check_run(list, place, &part, &history);
                history.add(Step { reader, call }, &part);
                self.check_sums(list, place, &part, &history);
            }
            self.check_peek(list, place, &answers);
        }
    }

    /// What a call took and passed is the sum over those that it stands for, and a
    /// zero skip's number is how many zeros were read.
    fn check_parts(&mut self, list: &List, place: usize, answer: &Answer, parts: &[Part]) {
        let taken = parts.iter().map(|(_, part)| part.taken).sum();
        let (group, found) = match list.calls[place].call {
            _ if answer.number != ACCEPTED => return,
            Call::SkipZeros => (&mut self.zero_skips, Found::zeros(taken)),
            Call::DigitRun => (&mut self.digit_runs, answer.found),
            _ => return,
        };
        let (_, last) = parts[parts.len() - 1];
        let of_parts = Answer {
            number: ACCEPTED,
            found,
            taken,
            passed: parts.iter().map(|(_, part)| part.passed).sum(),
            state: last.state,
            kept: true,
        };
        group.agree(&list.at(place), ("call", *answer), ("parts", of_parts));
    }

    /// What one call passes is one run, and begins behind the joined bytes.
    fn check_run(&mut self, list: &List, place: usize, answer: &Answer, before: &History) {
        if answer.passed > 0 {
            let reader = list.calls[place].reader;
            let may_pass = before.may_pass(reader, answer.passed);
            self.runs.agree(
                &list.at(place),
                ("passed", true),
                ("rule that it may", may_pass),
            );
        }
    }

    fn check_sums(&mut self, list: &List, place: usize, answer: &Answer, history: &History) {
        let State { cursor, .. } = answer.state;
        let input = list.at(place);
        self.joined.agree(
            &input,
            ("joined", Text(&history.joined)),
            ("before the cursor", Text(&list.buffer[..cursor])),
        );
        self.cursor.agree(
            &input,
            ("cursor", cursor),
            ("taken and passed", history.taken + history.passed),
        );
        let counts = history.counts;
        self.counts.agree(
            &input,
            ("Rust", answer.state),
            ("history", State { cursor, counts }),
        );
    }

    /// Runs the list again with a peek before a call that takes what it finds.
    /// What the call passed is then shared out between the two.
    fn check_peek(&mut self, list: &List, place: usize, answers: &[Answer]) {
        let Step { reader, call } = list.calls[place];
        let takes_what_it_finds = !matches!(call, Call::Peek | Call::TakeN(_));
        if !takes_what_it_finds || answers[place].number != ACCEPTED {
            return;
        }
        let call = Call::Peek;
        let mut calls = list.calls.to_vec();
        calls.insert(place, Step { reader, call });
        let mut with_peek = list.rust.run(list.buffer, &calls);
        let peek = with_peek.remove(place);
        with_peek[place].passed += peek.passed;
        for later in place..answers.len() {
            self.peeks.agree(
                &format_args!("peek before call {place}, {}", list.at(later)),
                ("without it", answers[later]),
                ("with it", with_peek[later]),
            );
        }
    }

    fn close(self, report: &mut Report) {
        let groups = [
            self.joined,
            self.cursor,
            self.runs,
            self.counts,
            self.zero_skips,
            self.digit_runs,
            self.peeks,
        ];
        for group in groups {
            report.close(group);
        }
    }
}

impl List<'_> {
    /// How a call of the list is told to people: with the whole list up to it.
    fn at(&self, place: usize) -> impl fmt::Display + '_ {
        ListedCall { list: self, place }
    }
}

struct ListedCall<'a> {
    list: &'a List<'a>,
    place: usize,
}

impl fmt::Display for ListedCall<'_> {
    fn fmt(&self, out: &mut fmt::Formatter<'_>) -> fmt::Result {
        let List {
            rust,
            buffer,
            calls,
        } = self.list;
        write!(out, "{}, \"{}\"", rust.word(), buffer.escape_ascii())?;
        for Step { reader, call } in &calls[..=self.place] {
            write!(out, ", {reader} {call}")?;
        }
        Ok(())
    }
}

/// Bytes that can be printed.
#[derive(PartialEq)]
struct Text<'a>(&'a [u8]);

impl fmt::Display for Text<'_> {
    fn fmt(&self, out: &mut fmt::Formatter<'_>) -> fmt::Result {
        write!(out, "\"{}\"", self.0.escape_ascii())
    }
}
