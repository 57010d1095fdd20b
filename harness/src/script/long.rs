//! Long scripts, which cross the bounds of a program's buffers many times.

use super::compare::compare;
use super::draw;
use super::program::Program;
use super::records::Script;
use crate::group::{Group, Report};
use crate::readers::sets::{C, I, ILTC, NONE};
use crate::readers::words::with_integer_flags;
use crate::readers::{call, draw as buffers};
use crate::rng::Rng;
use crate::word::{Field, Word};

/// What a program may well read or write at a time.
pub const BUFFER: usize = 65_536;

const CALLS: u64 = 800_000;

const OPENS: usize = 90_000;

pub fn run(report: &mut Report, program: &Program, seed: u64) {
    let mut rng = Rng::new(seed, "long scripts");
    let mut group = Group::new("script program, long scripts");
    for Script(input) in long(&mut rng) {
        compare(&mut group, program, &input);
    }
    report.close(group);
    let mut group = Group::new("script program, input that ends near a buffer's end");
    for Script(input) in ends_near(&mut rng) {
        compare(&mut group, program, &input);
    }
    report.close(group);
    let mut group = Group::new("script program, output that ends near a buffer's end");
    for Script(input) in prints_near() {
        compare(&mut group, program, &input);
    }
    report.close(group);
}

/// One to three MB each: calls of all kinds, one with bytes behind its stop, and
/// opens.
fn long(rng: &mut Rng) -> [Script; 4] {
    [
        many_calls(rng, with_integer_flags(I), CALLS),
        many_calls(rng, with_integer_flags(ILTC), CALLS).raw(&[7]),
        many_calls(rng, with_integer_flags(NONE), CALLS / 2)
            .raw(&[4, 9])
            .raw(&[2; BUFFER]),
        many_opens(OPENS),
    ]
}

fn many_calls(rng: &mut Rng, word: Word, count: u64) -> Script {
    let text = buffers::buffer(rng, word, 4_000);
    let script = Script::default().text(&text).open(word);
    draw::calls(rng, script, word, &text, count)
}

/// Refused opens whose answers have one digit or two, then a whole run. Their
/// length is odd, so that in time every byte of one lies at a buffer's end.
fn many_opens(count: usize) -> Script {
    let words = [with_integer_flags(C), bad_separator()];
    let script = (0..count).fold(Script::default(), |script, place| {
        script.open(words[place % 2])
    });
    script
        .text(b"1_2")
        .open(with_integer_flags(I))
        .takes(call::INTEGER, 3)
}

/// Refused with 4.
pub fn bad_separator() -> Word {
    with_integer_flags(I).with_field(Field::Separator, b'1')
}

/// Cut at every byte for some bytes around the ends of the first two buffers.
fn ends_near(rng: &mut Rng) -> Vec<Script> {
    let scripts = [
        many_opens(3 * BUFFER / 17),
        many_calls(rng, with_integer_flags(I), 60_000),
    ];
    let mut cut = Vec::new();
    for Script(input) in &scripts {
        for end in [BUFFER, 2 * BUFFER] {
            cut.extend((end - 9..=end + 9).map(|end| Script(input[..end].to_vec())));
        }
    }
    cut
}

/// Opens that print four bytes each, one that prints five, so that the output
/// ends at, before or behind a buffer's end; with and without a stop.
fn prints_near() -> Vec<Script> {
    let mut scripts = Vec::new();
    for lines in BUFFER / 4 - 2..=BUFFER / 4 + 2 {
        let fours = (0..lines).fold(Script::default(), |script, _| script.open(bad_separator()));
        for five in [false, true] {
            let script = match five {
                true => fours.clone().open(with_integer_flags(C)),
                false => fours.clone(),
            };
            scripts.push(script.clone().raw(&[7]));
            scripts.push(script);
        }
    }
    scripts
}
