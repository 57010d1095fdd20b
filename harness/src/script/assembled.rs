//! Scripts that the harness writes as text, assembled by tools/script: each
//! statement must come to the bytes of its record.

use std::fmt;
use std::io::{self, Write};
use std::process::{Command, Stdio};
use std::thread;

use super::records::{has_record, Script};
use super::statements;
use crate::group::{Group, Report};
use crate::readers::call::{Call, Step, EXPONENT, READERS};
use crate::readers::draw;
use crate::readers::words::{compiled, DECIMAL};
use crate::rng::Rng;
use crate::word::draw::likely_word;
use crate::word::{Field, Word};

/// From the repository's root, where the gate runs.
const ASSEMBLER: &str = "tools/script";

/// Words drawn at random, beside the compiled ones.
const WORDS: u32 = 50;

const LONGEST: usize = 12;

/// A statement, and the bytes that it must come to.
type Written = (String, Vec<u8>);

pub fn run(report: &mut Report, seed: u64) {
    let mut group = Group::new("scripts as text, assembled by tools/script");
    let written = written(&mut Rng::new(seed, "statements"));
    let text: String = written
        .iter()
        .map(|(text, _)| format!("{text}\n"))
        .collect();
    match assemble(&text) {
        Ok(bytes) => compare(&mut group, &written, &bytes),
        Err(error) => {
            let error = format!("{error} (run from the repository's root)");
            group.agree(&ASSEMBLER, ("file", error.as_str()), ("harness", "runs it"));
        }
    }
    report.close(group);
}

fn compare(group: &mut Group, written: &[Written], mut bytes: &[u8]) {
    for (statement, record) in written {
        let (own, rest) = bytes.split_at(record.len().min(bytes.len()));
        group.agree(statement, ("assembled", Hex(own)), ("record", Hex(record)));
        bytes = rest;
    }
    group.agree(
        &"behind the last",
        ("assembled", Hex(bytes)),
        ("record", Hex(&[])),
    );
}

/// Every byte as a text and as a value, and what is drawn for many words.
fn written(rng: &mut Rng) -> Vec<Written> {
    let mut written = Vec::new();
    let compiled = compiled().iter().map(|rust| rust.word());
    let drawn: Vec<_> = (0..WORDS).map(|_| likely_word(rng)).collect();
    for word in compiled.chain(drawn) {
        let text = draw::buffer(rng, word, LONGEST);
        add_opening(&mut written, &text, word);
        for reader in READERS {
            let calls = draw::calls(rng, word, &text);
            let recorded = calls.into_iter().filter(|call| has_record(*call));
            recorded.for_each(|call| add_call(&mut written, Step { reader, call }));
        }
    }
    for value in 0..=255 {
        let call = Call::ReadIfValueCased(value);
        let word = with_separator(value);
        add_opening(&mut written, &[value], word);
        add_call(
            &mut written,
            Step {
                reader: EXPONENT,
                call,
            },
        );
    }
    add_opening(&mut written, b"hex", with_separator(b'_'));
    written
}

fn with_separator(separator: u8) -> Word {
    DECIMAL.with_field(Field::Separator, separator)
}

/// The text and the open have a statement each, unless there is no text.
fn add_opening(written: &mut Vec<Written>, text: &[u8], word: Word) {
    let statements = statements::opening(text, word);
    let records = [Script::default().text(text), Script::default().open(word)];
    let records = records.into_iter().map(|Script(record)| record);
    let records = records.filter(|record| !record.is_empty());
    written.extend(statements.into_iter().zip(records));
}

fn add_call(written: &mut Vec<Written>, step: Step) {
    let Script(record) = Script::default().call(step);
    written.push((statements::call(step), record));
}

fn assemble(text: &str) -> io::Result<Vec<u8>> {
    let mut child = Command::new(ASSEMBLER)
        .arg("assemble")
        .stdin(Stdio::piped())
        .stdout(Stdio::piped())
        .spawn()?;
    let mut stdin = child.stdin.take().expect("a pipe to the program");
    // Written beside the reading, so that no full pipe stops the two.
    thread::scope(|scope| {
        let writing = scope.spawn(move || stdin.write_all(text.as_bytes()));
        let output = child.wait_with_output()?;
        writing.join().expect("a writer")?;
        Ok(output.stdout)
    })
}

/// Bytes in hexadecimal.
#[derive(PartialEq)]
struct Hex<'a>(&'a [u8]);

impl fmt::Display for Hex<'_> {
    fn fmt(&self, out: &mut fmt::Formatter<'_>) -> fmt::Result {
        self.0.iter().try_for_each(|byte| write!(out, "{byte:02X}"))
    }
}
