//! Writes ends of runs as text, a search on a line:
//!
//! `E what b0 b1 b2 b3 b4 answer`, each a packed number of eight bytes.
//!
//! `what`, the highest byte first: separator, the buffer's length, the place where
//! the search begins, and zeros. `answer` likewise: the end, steps over eight
//! bytes, steps over one, and zeros.
//!
//! `b0` to `b4` are the buffer, the first byte of each lowest, with zeros behind it.

use std::io::{self, Write};

use super::packed::{packed_buffer, packed_numbers};
use crate::readers::run_end::{one_bit_off, Search};
use crate::rng::Rng;

const LONGEST: usize = 40;

/// Lines for each length of a run that ends with the buffer, and for each that a
/// byte ends.
const RUNS: usize = 2;

/// Lines with no separator, and lines from the end of a buffer on.
const WITHOUT_SEPARATOR: usize = 30;
const FROM_THE_END_ON: usize = 40;

/// The last place that a line can state.
const LAST_PLACE: usize = 0xFF;

pub fn write(out: &mut impl Write, seed: u64) -> io::Result<()> {
    let mut rng = Rng::new(seed, "record run ends");
    for length in 0..=LONGEST {
        for _ in 0..RUNS {
            write_to_the_end(out, &mut rng, length)?;
            if length < LONGEST {
                write_to_a_byte(out, &mut rng, length)?;
            }
        }
    }
    for _ in 0..WITHOUT_SEPARATOR {
        write_without_separator(out, &mut rng)?;
    }
    for line in 0..FROM_THE_END_ON {
        write_from_the_end_on(out, &mut rng, line)?;
    }
    Ok(())
}

fn write_to_the_end(out: &mut impl Write, rng: &mut Rng, length: usize) -> io::Result<()> {
    let separator = separator(rng);
    let at = up_to(rng, LONGEST - length);
    let buffer = [bytes(rng, separator, at), vec![separator; length]].concat();
    write_line(out, separator, &buffer, at)
}

fn write_to_a_byte(out: &mut impl Write, rng: &mut Rng, length: usize) -> io::Result<()> {
    let separator = separator(rng);
    let at = up_to(rng, LONGEST - length - 1);
    let rest = up_to(rng, LONGEST - length - 1 - at);
    let buffer = [
        bytes(rng, separator, at),
        vec![separator; length],
        vec![one_bit_off(separator, rng.below(8))],
        bytes(rng, separator, rest),
    ];
    write_line(out, separator, &buffer.concat(), at)
}

fn write_without_separator(out: &mut impl Write, rng: &mut Rng) -> io::Result<()> {
    let length = up_to(rng, LONGEST);
    let buffer = bytes(rng, 0, length);
    write_line(out, 0, &buffer, up_to(rng, length))
}

/// The first lines from the places that are nearest and farthest.
fn write_from_the_end_on(out: &mut impl Write, rng: &mut Rng, line: usize) -> io::Result<()> {
    let separator = separator(rng);
    let length = up_to(rng, LONGEST);
    let at = match line {
        0..=2 => length + line,
        3 => LAST_PLACE,
        _ => length + up_to(rng, LAST_PLACE - length),
    };
    write_line(out, separator, &vec![separator; length], at)
}

fn up_to(rng: &mut Rng, last: usize) -> usize {
    rng.below(last as u64 + 1) as usize
}

/// Any but 0.
fn separator(rng: &mut Rng) -> u8 {
    match rng.below(2) {
        0 => b'_',
        _ => rng.byte_between(1, 0xFF),
    }
}

/// Mostly separators, and some that are but for one bit.
fn bytes(rng: &mut Rng, separator: u8, length: usize) -> Vec<u8> {
    let byte = |_| match rng.percent(80) {
        true => separator,
        false => one_bit_off(separator, rng.below(8)),
    };
    (0..length).map(byte).collect()
}

fn write_line(out: &mut impl Write, separator: u8, buffer: &[u8], at: usize) -> io::Result<()> {
    let search = Search {
        buffer,
        separator,
        at,
    };
    let found = search.counted();
    write!(
        out,
        "E {:016X}",
        packed_numbers([separator.into(), buffer.len(), at, 0, 0, 0, 0, 0])
    )?;
    let mut padded = [0; LONGEST];
    padded[..buffer.len()].copy_from_slice(buffer);
    for part in padded.chunks(8) {
        write!(out, " {:016X}", packed_buffer(part))?;
    }
    writeln!(
        out,
        " {:016X}",
        packed_numbers([found.end, found.eights, found.ones, 0, 0, 0, 0, 0])
    )
}
