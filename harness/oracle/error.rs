//! Stands in for the crate's own error type, which is not among its eight
//! files. It has the names that those files use, and nothing else.

/// The outcome of a check; the values are the numbers of the definition.
#[derive(Clone, Copy)]
pub enum Error {
    Success = 0,
    InvalidMantissaRadix = 1,
    InvalidExponentBase = 2,
    InvalidExponentRadix = 3,
    InvalidDigitSeparator = 4,
    InvalidBasePrefix = 5,
    InvalidBaseSuffix = 6,
    InvalidPunctuation = 7,
    InvalidExponentFlags = 8,
    InvalidMantissaSign = 9,
    InvalidExponentSign = 10,
    InvalidSpecial = 11,
    InvalidConsecutiveIntegerDigitSeparator = 12,
    InvalidConsecutiveFractionDigitSeparator = 13,
    InvalidConsecutiveExponentDigitSeparator = 14,
    InvalidFlags = 15,
}

impl Error {
    pub const fn is_success(&self) -> bool {
        matches!(self, Error::Success)
    }
}
