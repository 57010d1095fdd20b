//! The values of digits in one table, as one would have them where the radix is
//! only known at run time.

const NO_DIGIT: u8 = 0xFF;

static VALUES: [u8; 256] = values();

/// Whether a byte is a digit of a radix.
pub fn is_digit(byte: u8, radix: u8) -> bool {
    value_of(byte) < radix
}

/// More than any digit's where the byte is none.
pub fn value_of(byte: u8) -> u8 {
    VALUES[usize::from(byte)]
}

const fn values() -> [u8; 256] {
    let mut values = [NO_DIGIT; 256];
    let mut place = 0;
    while place < values.len() {
        let byte = place as u8;
        values[place] = match byte {
            b'0'..=b'9' => byte - b'0',
            b'A'..=b'Z' => byte - b'A' + 10,
            b'a'..=b'z' => byte - b'a' + 10,
            _ => NO_DIGIT,
        };
        place += 1;
    }
    values
}
