//! Reads a cell as a whole number.

use lexical_util_format::digit::char_to_digit_const;
use lexical_util_format::iterator::{Bytes, DigitsIter};

use super::next_all::ordinary;
use super::outcome::Outcome;
use super::singly::{ask, Singly, Work};
use super::table::{Table, Unit};
use crate::readers::call::{Call, Case};
use crate::readers::library::RawState;
use crate::readers::port;
use crate::readers::values::value_of;
use crate::word::{Field, Word};

pub struct DigitRun;

/// The value as a caller of the crate would make it: in 64 bits, each step checked.
struct Value {
    radix: u64,
    taken: usize,
    /// None once it is above 64 bits.
    value: Option<u64>,
}

impl Value {
    #[inline(always)]
    fn new(radix: u8) -> Self {
        Self {
            radix: radix.into(),
            taken: 0,
            value: Some(0),
        }
    }

    #[inline(always)]
    fn take(&mut self, digit: u64) {
        let value = self.value.and_then(|value| value.checked_mul(self.radix));
        self.value = value.and_then(|value| value.checked_add(digit));
        self.taken += 1;
    }

    /// As an outcome has it.
    #[inline(always)]
    fn found(&self) -> usize {
        match self.value {
            Some(value) if self.taken > 0 => 1 + value as usize,
            _ => panic!("a run that can be timed"),
        }
    }
}

impl Work for DigitRun {
    #[inline(always)]
    fn rust<const FORMAT: u128>(&self, cell: &[u8]) -> Outcome {
        let radix = const { Word::from_bits(FORMAT).field(Field::MantissaRadix) };
        let digit = |byte: &u8| char_to_digit_const(*byte, radix.into());
        let mut bytes = Bytes::<FORMAT>::new(cell);
        let mut iter = bytes.integer_iter();
        let mut run = Value::new(radix);
        while iter.peek().and_then(digit).is_some() {
            let digit = iter.next().and_then(digit);
            run.take(digit.map_or(0, u64::from));
        }
        Outcome::of_rust(&mut bytes, run.found(), run.taken)
    }

    #[inline(always)]
    fn port(&self, case: &mut Case) -> Outcome {
        let mut run = Value::new(case.word.field(Field::MantissaRadix));
        port::digit_run(case, |byte| run.take(value_of(byte).into()));
        Outcome::of_port(case, run.found(), run.taken)
    }

    #[inline(always)]
    fn library(&self, fresh: &RawState, cell: &[u8]) -> Outcome {
        ask(Call::DigitRun, fresh, cell)
    }
}

pub fn table() -> Table<Singly<DigitRun>> {
    Table {
        title: "Digit run, one call for each cell",
        short: "digit run",
        unit: Unit::Call,
        rows: ordinary(|| DigitRun),
    }
}
