//! What is a little smaller than an input, in the order of what matters most to
//! people: fewer calls, a shorter buffer, a smaller state, a simpler word, lower
//! readers, simpler calls, simpler bytes.

use super::Input;
use crate::readers::call::{ByteSet, Call};
use crate::readers::compiled::Readers;
use crate::readers::refusal::ACCEPTED;
use crate::readers::words::compiled;
use crate::word::{oracle, Field};

pub fn candidates(input: &Input) -> Vec<Input> {
    let kinds: [fn(&Input) -> Vec<Input>; 7] = [
        fewer_calls,
        shorter_buffers,
        smaller_states,
        simpler_words,
        lower_readers,
        simpler_calls,
        simpler_bytes,
    ];
    kinds.iter().flat_map(|kind| kind(input)).collect()
}

/// The compiled words stand in their order, simple ones first. A word that the
/// check accepts stays one, since no script has another; the separators of the
/// buffer become those of the other word.
fn simpler_words(input: &Input) -> Vec<Input> {
    let own = input.rust.word();
    let accepted = |word| oracle::format_error(word) == ACCEPTED;
    let simpler = compiled()
        .iter()
        .take_while(|rust| rust.word() != own)
        .filter(|rust| accepted(rust.word()) || !accepted(own));
    let with_word = |&rust: &&'static dyn Readers| {
        let [from, to] = [own, rust.word()].map(|word| word.field(Field::Separator));
        let mut other = input.clone();
        other.rust = rust;
        let separators = other.buffer.iter_mut().filter(|byte| **byte == from);
        separators.for_each(|byte| *byte = to);
        other
    };
    simpler.map(with_word).collect()
}

/// The last call alone, from the state that the others come to; or without some
/// of the calls.
fn fewer_calls(input: &Input) -> Vec<Input> {
    let count = input.steps.len();
    let last_alone = (count > 1).then(|| input.last_alone());
    let without = |range: std::ops::Range<usize>| {
        let mut other = input.clone();
        other.steps.drain(range);
        other
    };
    let halves = [0..count / 2, count / 2..count].into_iter();
    let singles = (0..count).map(|place| place..place + 1);
    let fewer = halves
        .chain(singles)
        .filter(|range| !range.is_empty() && range.len() < count)
        .map(without);
    last_alone.into_iter().chain(fewer).collect()
}

/// Without one byte. Of a state behind it the cursor goes back, and with it a
/// count that would be too large.
fn shorter_buffers(input: &Input) -> Vec<Input> {
    let without = |place| {
        let mut other = input.clone();
        other.buffer.remove(place);
        if place < input.start.cursor {
            other.start.cursor -= 1;
        }
        let mut left = other.start.cursor;
        for count in &mut other.start.counts {
            *count = (*count).min(left);
            left -= *count;
        }
        other
    };
    (0..input.buffer.len()).map(without).collect()
}

/// A count of 0 or 1 or one less; a cursor one place back.
fn smaller_states(input: &Input) -> Vec<Input> {
    let mut others = Vec::new();
    for place in 0..3 {
        let count = input.start.counts[place];
        let smaller = [0, 1, count.saturating_sub(1)];
        for smaller in smaller.into_iter().filter(|&smaller| smaller < count) {
            let mut other = input.clone();
            other.start.counts[place] = smaller;
            others.push(other);
        }
    }
    if input.start.cursor > input.start.counts.iter().sum() {
        let mut other = input.clone();
        other.start.cursor -= 1;
        others.push(other);
    }
    others
}

fn lower_readers(input: &Input) -> Vec<Input> {
    let mut others = Vec::new();
    for (place, step) in input.steps.iter().enumerate() {
        for reader in 0..step.reader {
            let mut other = input.clone();
            other.steps[place].reader = reader;
            others.push(other);
        }
    }
    others
}

fn simpler_calls(input: &Input) -> Vec<Input> {
    let mut others = Vec::new();
    for (place, step) in input.steps.iter().enumerate() {
        for call in simpler(input, step.call) {
            let mut other = input.clone();
            other.steps[place].call = call;
            others.push(other);
        }
    }
    others
}

/// The same kind of call with less of what it is given.
fn simpler(input: &Input, call: Call) -> Vec<Call> {
    match call {
        Call::TakeN(n) => {
            let smaller = [0, 1, 2, n / 2, n.saturating_sub(1)];
            let smaller = smaller.into_iter().filter(|&smaller| smaller < n);
            smaller.map(Call::TakeN).collect()
        }
        Call::ReadIfValueCased(value) => {
            let simpler = simpler_than(input, value);
            simpler.map(Call::ReadIfValueCased).collect()
        }
        Call::ReadIf(set) => smaller_sets(set).into_iter().map(Call::ReadIf).collect(),
        Call::Peek | Call::Next | Call::NextAll | Call::SkipZeros | Call::DigitRun => Vec::new(),
    }
}

/// None of it, half of it, all but one byte of it.
fn smaller_sets(set: ByteSet) -> Vec<ByteSet> {
    let bytes: Vec<u8> = (0..=255).filter(|&byte| set.contains(byte)).collect();
    let (one, other) = bytes.split_at(bytes.len() / 2);
    let without = |byte| ByteSet::of(bytes.iter().copied().filter(|&kept| kept != byte));
    let mut sets = vec![
        ByteSet::EMPTY,
        ByteSet::of(one.iter().copied()),
        ByteSet::of(other.iter().copied()),
    ];
    sets.extend(bytes.iter().map(|&byte| without(byte)));
    let size = |set: &ByteSet| set.0.iter().map(|part| part.count_ones()).sum::<u32>();
    sets.retain(|smaller| size(smaller) < size(&set));
    sets
}

fn simpler_bytes(input: &Input) -> Vec<Input> {
    let mut others = Vec::new();
    for (place, &byte) in input.buffer.iter().enumerate() {
        for simpler in simpler_than(input, byte) {
            let mut other = input.clone();
            other.buffer[place] = simpler;
            others.push(other);
        }
    }
    others
}

/// A digit, the separator, zero, a letter and a point, as far as they stand
/// before the byte in this order.
fn simpler_than(input: &Input, byte: u8) -> impl Iterator<Item = u8> {
    let separator = input.rust.word().field(Field::Separator);
    [b'1', separator, b'0', b'x', b'.']
        .into_iter()
        .take_while(move |&simpler| simpler != byte)
}
