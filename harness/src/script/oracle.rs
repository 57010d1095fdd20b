//! What the program has to print, by the definition's text for the script and by
//! the crate for every answer in it.

use super::records::{self, Record, BODIES, LONGEST_TEXT, OPEN, TEXT};
use crate::readers::answer::Answer;
use crate::readers::call::{Call, Step, SPECIAL};
use crate::readers::words::compiled;
use crate::word::{oracle, Word};

/// The number of a refusal that stops the run.
type Stop = u32;

const UNKNOWN: Stop = 19;
const CUT_SHORT: Stop = 20;
const OUT_OF_TURN: Stop = 21;
const TEXT_FULL: Stop = 22;

/// What is printed for an input. None where it cannot be told, because calls
/// follow an accepted word that the crate's readers are not compiled for.
pub fn output(input: &[u8]) -> Option<Vec<u8>> {
    let mut run = Run::default();
    let stop = run.accept_all(input).err();
    let mut out = Vec::new();
    for number in &run.opens {
        out.extend(format!("{OPEN} {number}\n").bytes());
    }
    for (step, answer) in run.steps.iter().zip(run.answers()?) {
        out.extend(line(step.call, &answer).bytes());
    }
    if let Some(number) = stop {
        out.extend(format!("!{number}\n").bytes());
    }
    Some(out)
}

/// What the records so far have come to. All opens stand before all calls, so
/// the crate can be asked for the calls in one go at the end.
#[derive(Default)]
struct Run {
    text: Vec<u8>,
    /// The answer of each open.
    opens: Vec<u32>,
    accepted: Option<Word>,
    steps: Vec<Step>,
}

impl Run {
    fn accept_all(&mut self, mut input: &[u8]) -> Result<(), Stop> {
        while !input.is_empty() {
            let (record, rest) = input.split_at(records::length(input));
            self.accept(parsed(record)?)?;
            input = rest;
        }
        Ok(())
    }

    fn accept(&mut self, record: Record) -> Result<(), Stop> {
        match record {
            Record::Text(_) | Record::Open(_) if self.accepted.is_some() => Err(OUT_OF_TURN),
            Record::Call(_) if self.accepted.is_none() => Err(OUT_OF_TURN),
            Record::Text(_) if self.text.len() == LONGEST_TEXT => Err(TEXT_FULL),
            Record::Text(byte) => {
                self.text.push(byte);
                Ok(())
            }
            Record::Open(word) => {
                self.open(word);
                Ok(())
            }
            Record::Call(step) => {
                self.steps.push(step);
                Ok(())
            }
        }
    }

    fn open(&mut self, word: Word) {
        let number = oracle::format_error(word);
        self.opens.push(number);
        if number == 0 {
            self.accepted = Some(word);
        }
    }

    /// The crate's answers to the calls, from a fresh state.
    fn answers(&self) -> Option<Vec<Answer>> {
        if self.steps.is_empty() {
            return Some(Vec::new());
        }
        let rust = compiled()
            .iter()
            .find(|rust| Some(rust.word()) == self.accepted)?;
        Some(rust.run(&self.text, &self.steps))
    }
}

/// The record, or the first refusal that is due to it whatever stands before it.
fn parsed(record: &[u8]) -> Result<Record, Stop> {
    let kind = record[0];
    let body = BODIES.get(usize::from(kind)).ok_or(UNKNOWN)?;
    let bytes = &record[1..];
    if bytes.len() < *body {
        return Err(CUT_SHORT);
    }
    match kind {
        TEXT => Ok(Record::Text(bytes[0])),
        OPEN => Ok(Record::Open(word(bytes))),
        _ if bytes[0] > SPECIAL => Err(UNKNOWN),
        _ => Ok(Record::Call(Step {
            reader: bytes[0],
            call: call(kind, &bytes[1..]),
        })),
    }
}

/// Lowest byte first.
fn word(bytes: &[u8]) -> Word {
    let bits = bytes
        .iter()
        .rev()
        .fold(0, |bits, &byte| bits << 8 | u128::from(byte));
    Word::from_halves(bits as u64, (bits >> 64) as u64)
}

fn call(kind: u8, arguments: &[u8]) -> Call {
    match (kind, arguments) {
        (records::PEEK, _) => Call::Peek,
        (records::TAKE, _) => Call::Next,
        (records::READ, &[value]) => Call::ReadIfValueCased(value),
        (records::ZERO_SKIP, _) => Call::SkipZeros,
        (records::BLOCK, &[a, b, c, d]) => Call::TakeN(u32::from_le_bytes([a, b, c, d]) as usize),
        _ => panic!("no call of kind {kind} with {} bytes", arguments.len()),
    }
}

/// The line of an answer. A block that was given has no byte to show; one that
/// was not has nothing to show at all. A declined read is shown as the end is.
pub fn line(call: Call, answer: &Answer) -> String {
    let kind = records::kind(call);
    let found = answer.found;
    let shown = match call {
        _ if answer.number != 0 => return format!("{kind} !{}\n", answer.number),
        Call::SkipZeros => found.what.to_string(),
        Call::TakeN(_) if !found.is_there() => return format!("{kind} none\n"),
        Call::TakeN(_) => "-".to_owned(),
        _ if !found.is_there() => "-".to_owned(),
        _ => found.what.to_string(),
    };
    let (cursor, taken, passed) = (answer.state.cursor, answer.taken, answer.passed);
    format!("{kind} {shown} {cursor} {taken} {passed}\n")
}
