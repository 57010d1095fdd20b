//! The lines of the answers, made in two ways.

use std::io::{self, BufWriter, Write};

const BUFFER: usize = 65_536;

pub trait Lines {
    /// What stands in the byte's place, and cursor, taken and passed.
    fn answer(&mut self, kind: u8, shown: Option<usize>, rest: [usize; 3]) -> io::Result<()>;
    fn none(&mut self, kind: u8) -> io::Result<()>;
    fn refused(&mut self, kind: u8, number: u32) -> io::Result<()>;
    fn open(&mut self, number: u32) -> io::Result<()>;
    fn stop(&mut self, number: u32) -> io::Result<()>;
    fn finish(&mut self) -> io::Result<()>;
}

/// By the standard library's formatting.
pub struct Formatted<W: Write>(BufWriter<W>);

impl<W: Write> Formatted<W> {
    pub fn new(out: W) -> Self {
        Self(BufWriter::with_capacity(BUFFER, out))
    }
}

impl<W: Write> Lines for Formatted<W> {
    fn answer(&mut self, kind: u8, shown: Option<usize>, rest: [usize; 3]) -> io::Result<()> {
        let [cursor, taken, passed] = rest;
        match shown {
            Some(shown) => writeln!(self.0, "{kind} {shown} {cursor} {taken} {passed}"),
            None => writeln!(self.0, "{kind} - {cursor} {taken} {passed}"),
        }
    }

    fn none(&mut self, kind: u8) -> io::Result<()> {
        writeln!(self.0, "{kind} none")
    }

    fn refused(&mut self, kind: u8, number: u32) -> io::Result<()> {
        writeln!(self.0, "{kind} !{number}")
    }

    fn open(&mut self, number: u32) -> io::Result<()> {
        writeln!(self.0, "1 {number}")
    }

    fn stop(&mut self, number: u32) -> io::Result<()> {
        writeln!(self.0, "!{number}")
    }

    fn finish(&mut self) -> io::Result<()> {
        self.0.flush()
    }
}

/// By hand, a digit at a time.
pub struct Decimals<W> {
    out: W,
    buffer: Vec<u8>,
}

impl<W: Write> Decimals<W> {
    pub fn new(out: W) -> Self {
        let buffer = Vec::with_capacity(BUFFER);
        Self { out, buffer }
    }

    /// Digits come from the last to the first, so they are laid out in a small
    /// array from its end.
    fn number(&mut self, mut number: usize) {
        if number < 10 {
            self.buffer.push(b'0' + number as u8);
            return;
        }
        let mut digits = [0; 20];
        let mut start = digits.len();
        while number > 0 {
            start -= 1;
            digits[start] = b'0' + (number % 10) as u8;
            number /= 10;
        }
        self.buffer.extend_from_slice(&digits[start..]);
    }

    /// Ends a line. The longest is shorter than what is kept free for it.
    fn end(&mut self) -> io::Result<()> {
        self.buffer.push(b'\n');
        if self.buffer.len() > BUFFER - 128 {
            self.write_out()?;
        }
        Ok(())
    }

    fn write_out(&mut self) -> io::Result<()> {
        self.out.write_all(&self.buffer)?;
        self.buffer.clear();
        Ok(())
    }

    /// A line of a kind and a word.
    fn line(&mut self, kind: u8, mark: &[u8], number: u32) -> io::Result<()> {
        self.number(kind.into());
        self.buffer.extend_from_slice(mark);
        self.number(number as usize);
        self.end()
    }
}

impl<W: Write> Lines for Decimals<W> {
    fn answer(&mut self, kind: u8, shown: Option<usize>, rest: [usize; 3]) -> io::Result<()> {
        self.number(kind.into());
        self.buffer.push(b' ');
        match shown {
            Some(shown) => self.number(shown),
            None => self.buffer.push(b'-'),
        }
        for number in rest {
            self.buffer.push(b' ');
            self.number(number);
        }
        self.end()
    }

    fn none(&mut self, kind: u8) -> io::Result<()> {
        self.number(kind.into());
        self.buffer.extend_from_slice(b" none");
        self.end()
    }

    fn refused(&mut self, kind: u8, number: u32) -> io::Result<()> {
        self.line(kind, b" !", number)
    }

    fn open(&mut self, number: u32) -> io::Result<()> {
        self.line(1, b" ", number)
    }

    fn stop(&mut self, number: u32) -> io::Result<()> {
        self.buffer.push(b'!');
        self.number(number as usize);
        self.end()
    }

    fn finish(&mut self) -> io::Result<()> {
        self.write_out()?;
        self.out.flush()
    }
}
