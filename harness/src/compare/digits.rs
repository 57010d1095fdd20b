//! Digits and valid ASCII, over every byte.

use crate::group::{Group, Report};
use crate::word::{library, oracle};

/// Radixes that a narrower number would turn into small or negative ones.
const WIDE_RADIXES: [u32; 4] = [0x0001_000A, 0x7FFF_FFFF, 0x8000_0000, u32::MAX];

pub fn run(report: &mut Report) {
    compare_digits(report);
    compare_ascii(report);
}

fn compare_digits(report: &mut Report) {
    let mut group = Group::new("char_is_digit_const");
    for radix in (0..=300).chain(WIDE_RADIXES) {
        for byte in 0..=255 {
            group.agree(
                &format_args!("byte 0x{byte:02X} radix {radix}"),
                ("library", library::char_is_digit_const(byte, radix)),
                ("Rust", oracle::char_is_digit_const(byte, radix)),
            );
        }
    }
    report.close(group);
}

fn compare_ascii(report: &mut Report) {
    let mut group = Group::new("is_valid_ascii");
    for byte in 0..=255 {
        group.agree(
            &format_args!("byte 0x{byte:02X}"),
            ("library", library::is_valid_ascii(byte)),
            ("Rust", oracle::is_valid_ascii(byte)),
        );
    }
    report.close(group);
}
