//! Damage gone through in full: every unknown kind, every unknown reader, every
//! cut of every kind, at every place; and the text's longest lengths.

use super::compare::compare;
use super::places::places;
use super::program::Program;
use super::records::{Script, BODIES, CALLS, LONGEST_TEXT};
use crate::group::{Group, Report};
use crate::readers::call::{INTEGER, SPECIAL};
use crate::readers::sets::{C, I};
use crate::readers::words::with_integer_flags;

/// What stands behind the damage and must not be looked at.
const BEHIND: [u8; 4] = [3, 0, 2, 0];

pub fn run(report: &mut Report, program: &Program) {
    let groups: [(&str, Vec<Script>); 4] = [
        ("every unknown kind", unknown_kinds()),
        ("every unknown reader", unknown_readers()),
        ("every cut of every kind", cuts()),
        ("text full or nearly", long_texts()),
    ];
    for (name, scripts) in groups {
        let mut group = Group::new(format!("script program, {name}"));
        for Script(input) in &scripts {
            compare(&mut group, program, input);
        }
        report.close(group);
    }
}

/// In turn with nothing and with records behind them.
fn unknown_kinds() -> Vec<Script> {
    let mut scripts = Vec::new();
    for place in places() {
        for kind in BODIES.len() as u8..=255 {
            let script = place.before.clone().raw(&[kind]);
            let last = kind % 2 == 0;
            scripts.push(if last { script } else { script.raw(&BEHIND) });
        }
    }
    scripts
}

/// Each by one kind of call at a place, in turn; the bounds by all kinds.
fn unknown_readers() -> Vec<Script> {
    let mut scripts = Vec::new();
    for (turn, place) in places().iter().enumerate() {
        for reader in SPECIAL + 1..=255 {
            let kind = CALLS[(usize::from(reader) + turn) % CALLS.len()];
            scripts.push(place.before.clone().then(&call_by(kind, reader)));
        }
        for kind in CALLS {
            for reader in [SPECIAL + 1, 127, 128, 255] {
                let script = place.before.clone().then(&call_by(kind, reader));
                scripts.push(script.raw(&BEHIND));
            }
        }
    }
    scripts
}

fn call_by(kind: u8, reader: u8) -> Script {
    let mut record = vec![kind, reader];
    record.resize(1 + BODIES[usize::from(kind)], 0);
    Script(record)
}

/// Once with a body of bytes that are no reader: the length is tested first.
fn cuts() -> Vec<Script> {
    let mut scripts = Vec::new();
    for place in places() {
        for (kind, body) in BODIES.into_iter().enumerate() {
            for length in 0..=body {
                for byte in [INTEGER, 0xFF] {
                    let record = [vec![kind as u8], vec![byte; length]].concat();
                    scripts.push(place.before.clone().raw(&record));
                }
            }
        }
    }
    scripts
}

/// Texts of lengths around the longest, each with all that can follow.
fn long_texts() -> Vec<Script> {
    let follow = [
        Script::default(),
        Script::default().text(b"9"),
        Script::default().raw(&[0]),
        Script::default().open(with_integer_flags(C)).text(b"9"),
        Script::default()
            .open(with_integer_flags(I))
            .takes(INTEGER, 3),
        Script::default().open(with_integer_flags(I)).text(b"9"),
        Script::default().peek(INTEGER),
        Script::default().peek(SPECIAL + 1),
    ];
    let lengths = LONGEST_TEXT - 1..=LONGEST_TEXT + 1;
    lengths
        .flat_map(|length| {
            let text = Script::default().text(&b"7_".repeat(length)[..length]);
            follow.each_ref().map(|rest| text.clone().then(rest))
        })
        .collect()
}
