//! The script program as one would write it in Rust over the crate, for the
//! benchmark: its word is compiled in, so it runs scripts of that word only.

mod input;
mod lines;

use std::io;
use std::process::ExitCode;

use lexical_util_format::iterator::{Bytes, DigitsIter, Iter};

use self::input::Input;
use self::lines::{Decimals, Formatted, Lines};
use crate::readers::call::{EXPONENT, FRACTION, INTEGER, SPECIAL};
use crate::readers::sets::{ILC, IT};
use crate::readers::words::DECIMAL;
use crate::script::records::{
    BLOCK, BODIES, LONGEST_TEXT, OPEN, PEEK, READ, TAKE, TEXT, ZERO_SKIP,
};
use crate::word::{oracle, reader_flags, Word, SPECIAL_SEPARATOR};

/// No flags, IT, ILC and the special flag, in the order of the readers.
pub const WORD: Word = DECIMAL
    .with_bits(reader_flags(FRACTION, IT))
    .with_bits(reader_flags(EXPONENT, ILC))
    .with_bits(SPECIAL_SEPARATOR);

/// Runs the script on standard input. Lines are made as `printing` says:
/// `formatted` by the standard library, `decimals` by hand.
pub fn run(printing: &str) -> ExitCode {
    let mut input = Input::new(io::stdin().lock());
    let out = io::stdout().lock();
    let done = match printing {
        "formatted" => run_script(&mut input, &mut Formatted::new(out)),
        "decimals" => run_script(&mut input, &mut Decimals::new(out)),
        _ => Err(io::Error::other("lines are formatted or decimals")),
    };
    match done {
        Ok(()) => ExitCode::SUCCESS,
        Err(error) => {
            eprintln!("harness: {error}");
            ExitCode::FAILURE
        }
    }
}

fn run_script(input: &mut Input<impl io::Read>, out: &mut impl Lines) -> io::Result<()> {
    let mut text = Vec::with_capacity(LONGEST_TEXT);
    if gather(input, out, &mut text)? {
        call_all(input, out, &text)?;
    }
    out.finish()
}

/// The first refusal that is due to a record whatever stands before it.
fn fault(record: &[u8]) -> Option<u32> {
    let Some(&body) = BODIES.get(usize::from(record[0])) else {
        return Some(19);
    };
    if record.len() <= body {
        return Some(20);
    }
    (record[0] > OPEN && record[1] > SPECIAL).then_some(19)
}

/// Text and opens. Whether a word was accepted.
fn gather(
    input: &mut Input<impl io::Read>,
    out: &mut impl Lines,
    text: &mut Vec<u8>,
) -> io::Result<bool> {
    while let Some(record) = input.next_record()? {
        if let Some(number) = fault(record) {
            out.stop(number)?;
            return Ok(false);
        }
        match record {
            [TEXT, _] if text.len() == LONGEST_TEXT => {
                out.stop(22)?;
                return Ok(false);
            }
            [TEXT, byte] => text.push(*byte),
            [OPEN, bytes @ ..] => {
                let number = opened(bytes)?;
                out.open(number)?;
                if number == 0 {
                    return Ok(true);
                }
            }
            _ => {
                out.stop(21)?;
                return Ok(false);
            }
        }
    }
    Ok(false)
}

fn opened(bytes: &[u8]) -> io::Result<u32> {
    let bits = u128::from_le_bytes(bytes.try_into().expect("sixteen bytes"));
    let word = Word::from_halves(bits as u64, (bits >> 64) as u64);
    match oracle::format_error(word) {
        0 if word != WORD => Err(io::Error::other("not the word that is compiled in")),
        number => Ok(number),
    }
}

fn call_all(input: &mut Input<impl io::Read>, out: &mut impl Lines, text: &[u8]) -> io::Result<()> {
    let mut bytes = Bytes::<{ WORD.bits() }>::new(text);
    while let Some(record) = input.next_record()? {
        if let Some(number) = fault(record) {
            return out.stop(number);
        }
        match record {
            [TEXT | OPEN, ..] => return out.stop(21),
            [kind @ (ZERO_SKIP | BLOCK), SPECIAL, ..] => out.refused(*kind, 18)?,
            [BLOCK, reader, size @ ..] => block(&mut bytes, *reader, size, out)?,
            [kind, reader, value @ ..] => call(&mut bytes, *kind, *reader, value, out)?,
            _ => unreachable!("a record without a reader"),
        }
    }
    Ok(())
}

fn block<const FORMAT: u128>(
    bytes: &mut Bytes<FORMAT>,
    reader: u8,
    size: &[u8],
    out: &mut impl Lines,
) -> io::Result<()> {
    let size = u32::from_le_bytes(size.try_into().expect("four bytes")) as usize;
    let block = match reader {
        INTEGER => bytes.integer_iter().take_n(size),
        FRACTION => bytes.fraction_iter().take_n(size),
        _ => bytes.exponent_iter().take_n(size),
    };
    match block.map(|block| block.as_slice().len()) {
        Some(taken) => out.answer(BLOCK, None, [bytes.cursor(), taken, 0]),
        None => out.none(BLOCK),
    }
}

fn call<const FORMAT: u128>(
    bytes: &mut Bytes<FORMAT>,
    kind: u8,
    reader: u8,
    value: &[u8],
    out: &mut impl Lines,
) -> io::Result<()> {
    let before = bytes.cursor();
    let (shown, taken) = match reader {
        INTEGER => ask(&mut bytes.integer_iter(), kind, value),
        FRACTION => ask(&mut bytes.fraction_iter(), kind, value),
        EXPONENT => ask(&mut bytes.exponent_iter(), kind, value),
        _ => ask(&mut bytes.special_iter(), kind, value),
    };
    let cursor = bytes.cursor();
    out.answer(kind, shown, [cursor, taken, cursor - before - taken])
}

/// What is shown in the byte's place, and how many bytes were taken.
fn ask<'a>(iter: &mut impl DigitsIter<'a>, kind: u8, value: &[u8]) -> (Option<usize>, usize) {
    let byte = match kind {
        PEEK => return (iter.peek().map(|&byte| byte.into()), 0),
        TAKE => iter.next().copied(),
        READ => iter.read_if_value_cased(value[0]),
        _ => {
            let zeros = iter.skip_zeros();
            return (Some(zeros), zeros);
        }
    };
    (byte.map(usize::from), usize::from(byte.is_some()))
}
