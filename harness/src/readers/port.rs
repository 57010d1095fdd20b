//! The crate's calls with the word at run time, as one would write them in
//! plain safe Rust: what it costs that the word is data. A case stands in the
//! place of the crate's `Bytes`: a call changes its state.

use super::call::{Case, SPECIAL};
use super::column::{Column, Sums};
use super::read::Read;
use super::sets::{C, NONE};
use super::table::View;

struct Port<'a> {
    view: View<'a>,
    cursor: usize,
    count: usize,
}

#[inline(always)]
pub fn peek(case: &mut Case) -> Option<u8> {
    with_port(case, Port::peek)
}

#[inline(always)]
pub fn next(case: &mut Case) -> Option<u8> {
    with_port(case, Port::next)
}

/// How many bytes were taken.
#[inline(always)]
pub fn next_all(case: &mut Case) -> usize {
    with_port(case, Port::take_all)
}

#[inline(always)]
pub fn read_if_value_cased(case: &mut Case, value: u8) -> Read {
    with_port(case, |port| port.read(value))
}

/// How many zeros were skipped.
#[inline(always)]
pub fn skip_zeros(case: &mut Case) -> usize {
    with_port(case, |port| {
        let mut zeros = 0;
        while let Read::Taken(_) = port.read(b'0') {
            port.count += 1;
            zeros += 1;
        }
        zeros
    })
}

#[inline(always)]
pub fn take_n<'a>(case: &mut Case<'a>, n: usize) -> Option<&'a [u8]> {
    let buffer = case.buffer;
    with_port(case, |port| {
        if port.view.set != NONE {
            return None;
        }
        let left = &buffer[port.cursor..];
        let part = &left[..n.min(left.len())];
        port.cursor += part.len();
        Some(part)
    })
}

/// Gives each byte that a digit run takes. The state is behind the run then, also
/// where that is due a refusal.
#[inline(always)]
pub fn digit_run(case: &mut Case, mut take: impl FnMut(u8)) {
    with_port(case, |port| {
        while let Some(byte) = port.next_digit() {
            take(byte);
        }
    })
}

/// The word's fields are read once for the whole column.
pub fn next_all_column(column: &Column) -> Sums {
    let view = View::new(column.word, column.reader, &[]);
    let mut sums = Sums::default();
    for cell in column.cells() {
        let mut port = Port {
            view: view.over(cell),
            cursor: 0,
            count: 0,
        };
        let taken = port.take_all();
        sums.taken += taken;
        sums.passed += port.cursor - taken;
        if column.reader != SPECIAL {
            sums.digits += port.count;
        }
    }
    sums
}

/// The word's fields are read at each call.
#[inline(always)]
fn with_port<'a, T>(case: &mut Case<'a>, call: impl FnOnce(&mut Port<'a>) -> T) -> T {
    let mut port = Port::new(case);
    let found = call(&mut port);
    case.state.cursor = port.cursor;
    if case.reader != SPECIAL {
        case.state.counts[usize::from(case.reader)] = port.count;
    }
    found
}

impl<'a> Port<'a> {
    #[inline]
    fn new(case: &Case<'a>) -> Self {
        Self {
            view: View::new(case.word, case.reader, case.buffer),
            cursor: case.state.cursor,
            count: match case.reader {
                SPECIAL => 0,
                reader => case.state.counts[usize::from(reader)],
            },
        }
    }

    fn take_all(&mut self) -> usize {
        let mut taken = 0;
        while self.next().is_some() {
            taken += 1;
        }
        taken
    }

    fn next(&mut self) -> Option<u8> {
        let byte = self.peek()?;
        self.cursor += 1;
        if self.view.set != NONE && self.view.is_digit(Some(byte)) {
            self.count += 1;
        }
        Some(byte)
    }

    /// What the take behind a peek takes, where that found a digit.
    fn next_digit(&mut self) -> Option<u8> {
        let peeked = self.peek();
        match self.view.is_digit(peeked) {
            true => self.next(),
            false => None,
        }
    }

    fn read(&mut self, value: u8) -> Read {
        match self.peek() {
            None => Read::End,
            Some(byte) if byte == value => {
                self.cursor += 1;
                Read::Taken(byte)
            }
            Some(byte) => Read::Declined(byte),
        }
    }

    fn peek(&mut self) -> Option<u8> {
        let byte = self.view.at(self.cursor);
        if !self.view.is_separator(byte) || !self.view.may_pass(self.cursor, self.count) {
            return byte;
        }
        self.cursor += 1;
        if self.view.set & C != 0 {
            self.cursor = self.view.end_of_run(self.cursor);
        }
        self.view.at(self.cursor)
    }
}
