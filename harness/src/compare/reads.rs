//! The three ways of a read, by the library's own peek from the same state: the
//! end exactly where the peek has no byte, else the peek's byte, taken where it is
//! in the set and declined where it is not. What the peek passed stays passed, and
//! all else is the peek's too.

use super::small::{alphabet, for_each_buffer, for_each_case};
use crate::group::{Group, Report};
use crate::readers::answer::{Answer, Found};
use crate::readers::call::{ByteSet, Call, Case, READERS};
use crate::readers::read::Read;
use crate::readers::words::{callable, compiled};
use crate::readers::{draw, library};
use crate::rng::Rng;

/// One byte less than where the crate is asked too.
const LONGEST: usize = 4;

/// By what word 0 of an answer says of a read.
const WAYS: [&str; 3] = ["end", "taken", "declined"];

pub fn run(report: &mut Report, seed: u64) {
    let mut reads = Reads::new(seed);
    for rust in compiled() {
        let word = rust.word();
        for reader in callable(word) {
            for_each_buffer(alphabet(word), LONGEST, &mut |buffer| {
                for_each_case(word, buffer, reader, &mut |case| reads.compare(case));
            });
        }
    }
    reads.close(report);
}

struct Reads {
    rng: Rng,
    by_peek: Group,
    /// How often: by reader, by way, without and with passing.
    met: [[[u64; 2]; WAYS.len()]; READERS.len()],
}

impl Reads {
    fn new(seed: u64) -> Self {
        Self {
            rng: Rng::new(seed, "reads by peeks"),
            by_peek: Group::new("reads, end, taken or declined as the library's own peek has it"),
            met: Default::default(),
        }
    }

    fn compare(&mut self, case: &Case) {
        let peek = library::call(case, Call::Peek);
        let [digit, zero, separator, letter, _] = alphabet(case.word);
        for set in [ByteSet::EMPTY, ByteSet::ALL, draw::set(&mut self.rng)] {
            self.compare_read(case, Call::ReadIf(set), set, &peek);
        }
        for byte in [digit, zero, separator, letter] {
            let set = ByteSet::of([byte]);
            self.compare_read(case, Call::ReadIf(set), set, &peek);
            self.compare_read(case, Call::ReadIfValueCased(byte), set, &peek);
        }
    }

    fn compare_read(&mut self, case: &Case, call: Call, set: ByteSet, peek: &Answer) {
        let due = due(peek, set);
        self.by_peek.agree(
            &format_args!("{call}, {case}"),
            ("read", library::call(case, call)),
            ("by its peek", due),
        );
        let [way, passing] = [due.found.how as usize, due.passed.min(1)];
        self.met[usize::from(case.reader)][way][passing] += 1;
    }

    fn close(self, report: &mut Report) {
        let mut met = Group::new("reads, each of three ways met by each reader");
        for (reader, ways) in self.met.iter().enumerate() {
            for (way, numbers) in WAYS.into_iter().zip(ways) {
                for (passing, &number) in ["without", "with"].into_iter().zip(numbers) {
                    met.agree(
                        &format_args!("reader {reader}, {way}, {passing} passing"),
                        ("met", number > 0),
                        ("harness", true),
                    );
                }
            }
        }
        report.close(self.by_peek);
        report.close(met);
    }
}

/// What a read by a set is due, by the peek from the same state.
fn due(peek: &Answer, set: ByteSet) -> Answer {
    let mut due = *peek;
    let byte = peek.found.what as u8;
    let read = match peek.found.is_there() {
        false => Read::End,
        true if set.contains(byte) => Read::Taken(byte),
        true => Read::Declined(byte),
    };
    due.found = Found::read(read);
    due.taken = usize::from(read.taken().is_some());
    due.state.cursor += due.taken;
    due
}
