//! The Rattle static library: its C functions, and the same for our types.

#![allow(unsafe_code)]

use super::Word;

// Safe: none of these takes a pointer, and each is defined for all arguments.
unsafe extern "C" {
    safe fn pawhetino_format_error(lo: u64, hi: u64) -> u32;
    safe fn pawhetino_plain_format_error(lo: u64, hi: u64) -> u32;
    safe fn pawhetino_char_is_digit_const(c: u8, radix: u32) -> bool;
    safe fn pawhetino_is_valid_ascii(c: u8) -> bool;
}

pub fn format_error(word: Word) -> u32 {
    pawhetino_format_error(word.lo(), word.hi())
}

pub fn plain_format_error(word: Word) -> u32 {
    pawhetino_plain_format_error(word.lo(), word.hi())
}

pub fn char_is_digit_const(byte: u8, radix: u32) -> bool {
    pawhetino_char_is_digit_const(byte, radix)
}

pub fn is_valid_ascii(byte: u8) -> bool {
    pawhetino_is_valid_ascii(byte)
}
