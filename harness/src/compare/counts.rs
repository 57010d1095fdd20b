//! `current_count`: the reader's own count, or what the crate shows in place of
//! it. The special reader has no count, so it is not compared. A reader with the
//! consecutive flag alone is asked too: it has no rule, and yet shows its count.

use crate::group::{Group, Report};
use crate::readers::answer::CountAnswer;
use crate::readers::call::{Case, State, COUNTED};
use crate::readers::compiled::Readers;
use crate::readers::sets::C;
use crate::readers::words::compiled;
use crate::readers::{draw, library};
use crate::rng::Rng;

/// A buffer for the states that are gone through one by one.
const BUFFER: &[u8] = b"1_2.x_";

/// Random states for each reader of each word.
const DRAWN: u32 = 1_000;

pub fn run(report: &mut Report, seed: u64) {
    let mut group = Group::new("readers, current_count");
    let mut rng = Rng::new(seed, "reader counts");
    assert!(COUNTED.into_iter().all(has_consecutive_alone));
    for &rust in compiled() {
        for reader in COUNTED {
            for state in small_states() {
                compare(&mut group, rust, BUFFER, state, reader);
            }
            for _ in 0..DRAWN {
                let buffer = draw::buffer(&mut rng, rust.word(), 40);
                let state = draw::state(&mut rng, &buffer);
                compare(&mut group, rust, &buffer, state, reader);
            }
        }
    }
    report.close(group);
}

fn has_consecutive_alone(reader: u8) -> bool {
    let mut words = compiled().iter().map(|rust| rust.word());
    words.any(|word| word.reader_set(reader) == C)
}

fn compare(group: &mut Group, rust: &dyn Readers, buffer: &[u8], state: State, reader: u8) {
    let case = Case {
        word: rust.word(),
        buffer,
        state,
        reader,
    };
    let expected = CountAnswer {
        number: 0,
        count: rust.current_count(&case),
        kept: true,
    };
    let answer = library::current_count(&case);
    group.agree(&case, ("library", answer), ("Rust", expected));
}

/// Every cursor of the buffer with all counts that it allows.
fn small_states() -> Vec<State> {
    let mut states = Vec::new();
    for cursor in 0..=BUFFER.len() {
        for integer in 0..=cursor {
            for fraction in 0..=cursor - integer {
                for exponent in 0..=cursor - integer - fraction {
                    let counts = [integer, fraction, exponent];
                    states.push(State { cursor, counts });
                }
            }
        }
    }
    states
}
