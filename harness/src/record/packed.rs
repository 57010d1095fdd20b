//! Numbers of eight bytes that the lines of a record are made of.

/// Eight numbers below 256, the first one highest.
pub fn packed_numbers(numbers: [usize; 8]) -> u64 {
    numbers
        .iter()
        .fold(0, |packed, &number| packed << 8 | number as u64)
}

/// Up to eight bytes, the first one lowest.
pub fn packed_buffer(buffer: &[u8]) -> u64 {
    buffer
        .iter()
        .rev()
        .fold(0, |number, &byte| number << 8 | u64::from(byte))
}
