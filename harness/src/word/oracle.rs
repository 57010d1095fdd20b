//! The Rust crate's two builds, asked in the same way as the Rattle library.

use super::Word;

pub use lexical_util_format::ascii::is_valid_ascii;
pub use lexical_util_format::digit::char_is_digit_const;

pub fn format_error(word: Word) -> u32 {
    lexical_util_format::format_error(word.lo(), word.hi())
}

pub fn plain_format_error(word: Word) -> u32 {
    lexical_util_plain::format_error(word.lo(), word.hi())
}
