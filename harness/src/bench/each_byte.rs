//! A call at each byte of a cell, and one more, which finds none.

#![allow(unsafe_code)]

use lexical_util_format::iterator::{Bytes, Iter};

use super::outcome::Outcome;
use super::singly::Work;
use crate::readers::call::{Call, Case, INTEGER};
use crate::readers::library::{self, RawState, CURSOR_AT, INTEGER_AT};
use crate::readers::refusal::ACCEPTED;

/// A call that finds a byte or none.
pub trait ByteCall {
    const CALL: Call;

    /// Whether the caller moves past a byte, as the crate's reads do behind a peek.
    const STEPS: bool;

    fn rust<const FORMAT: u128>(bytes: &mut Bytes<FORMAT>) -> Option<u8>;
    fn port(case: &mut Case) -> Option<u8>;

    #[inline(never)]
    fn rust_called<const FORMAT: u128>(bytes: &mut Bytes<FORMAT>) -> Option<u8> {
        Self::rust(bytes)
    }

    #[inline(never)]
    fn port_called(case: &mut Case) -> Option<u8> {
        Self::port(case)
    }
}

pub struct EachByte<C>(pub C);

impl<C: ByteCall> Work for EachByte<C> {
    #[inline(always)]
    fn rust<const FORMAT: u128>(&self, cell: &[u8]) -> Outcome {
        by_rust::<C, FORMAT>(cell, C::rust)
    }

    #[inline(always)]
    fn rust_called<const FORMAT: u128>(&self, cell: &[u8]) -> Outcome {
        by_rust::<C, FORMAT>(cell, C::rust_called)
    }

    #[inline(always)]
    fn port(&self, case: &mut Case) -> Outcome {
        by_port::<C>(case, C::port)
    }

    #[inline(always)]
    fn port_called(&self, case: &mut Case) -> Outcome {
        by_port::<C>(case, C::port_called)
    }

    #[inline(always)]
    fn library(&self, fresh: &RawState, cell: &[u8]) -> Outcome {
        by_library::<C>(fresh, cell)
    }

    fn calls(&self, outcome: Outcome) -> usize {
        outcome.taken + 1
    }
}

#[inline(always)]
fn by_rust<C: ByteCall, const FORMAT: u128>(
    cell: &[u8],
    call: impl Fn(&mut Bytes<FORMAT>) -> Option<u8>,
) -> Outcome {
    let mut bytes = Bytes::<FORMAT>::new(cell);
    let [mut sum, mut taken] = [0; 2];
    while let Some(byte) = call(&mut bytes) {
        sum += usize::from(byte);
        taken += 1;
        if C::STEPS {
            // SAFETY: the byte that was found is at the cursor.
            unsafe { bytes.integer_iter().step_unchecked() };
        }
    }
    Outcome::of_rust(&mut bytes, sum, taken)
}

#[inline(always)]
fn by_port<C: ByteCall>(case: &mut Case, call: impl Fn(&mut Case) -> Option<u8>) -> Outcome {
    let [mut sum, mut taken] = [0; 2];
    while let Some(byte) = call(case) {
        sum += usize::from(byte);
        taken += 1;
        if C::STEPS {
            case.state.cursor += 1;
        }
    }
    Outcome::of_port(case, sum, taken)
}

#[inline(always)]
fn by_library<C: ByteCall>(fresh: &RawState, cell: &[u8]) -> Outcome {
    let mut state = *fresh;
    let mut answer = [0; 4];
    let [mut sum, mut taken] = [0; 2];
    loop {
        let number = library::ask(C::CALL, cell, INTEGER, &mut state, &mut answer);
        assert!(number == ACCEPTED, "a call that can be timed");
        let [is_there, byte, ..] = answer;
        if is_there == 0 {
            let [cursor, count] = [CURSOR_AT, INTEGER_AT].map(|place| state[place] as usize);
            return Outcome::new(sum, taken, cursor, count);
        }
        sum += byte as usize;
        taken += 1;
        if C::STEPS {
            state[CURSOR_AT] += 1;
        }
    }
}
