//! `is_digit` and `is_digit_separator`, over every byte.

use crate::group::{Group, Report};
use crate::readers::call::READERS;
use crate::readers::library;
use crate::readers::words::{compiled, DECIMAL};
use crate::word::{oracle, Field};

pub fn run(report: &mut Report) {
    compare_compiled(report);
    compare_radixes(report);
    compare_separators(report);
}

/// Each compiled word; all readers of the crate give the same answers.
fn compare_compiled(report: &mut Report) {
    let mut digit = Group::new("readers, is_digit");
    let mut separator = Group::new("readers, is_digit_separator");
    for &rust in compiled() {
        let word = rust.word();
        for reader in READERS {
            for byte in 0..=255 {
                let input = format_args!("byte 0x{byte:02X}, reader {reader}, {word}");
                digit.agree(
                    &input,
                    ("library", library::is_digit(word, byte)),
                    ("Rust", rust.is_digit(reader, byte)),
                );
                separator.agree(
                    &input,
                    ("library", library::is_digit_separator(word, byte)),
                    ("Rust", rust.is_digit_separator(reader, byte)),
                );
            }
        }
    }
    report.close(digit);
    report.close(separator);
}

/// Each radix that a word can state, beside the crate's own test for digits.
fn compare_radixes(report: &mut Report) {
    let mut group = Group::new("readers, is_digit, every radix");
    for radix in 0..=255 {
        let word = DECIMAL.with_field(Field::MantissaRadix, radix);
        for byte in 0..=255 {
            group.agree(
                &format_args!("byte 0x{byte:02X}, {word}"),
                ("library", library::is_digit(word, byte)),
                ("Rust", oracle::char_is_digit_const(byte, radix.into())),
            );
        }
    }
    report.close(group);
}

/// Each separator that a word can state, as the definition says: it is the
/// separator, except that 0 stands for none.
fn compare_separators(report: &mut Report) {
    let mut group = Group::new("readers, is_digit_separator, every separator");
    for separator in 0..=255 {
        let word = DECIMAL.with_field(Field::Separator, separator);
        for byte in 0..=255 {
            group.agree(
                &format_args!("byte 0x{byte:02X}, {word}"),
                ("library", library::is_digit_separator(word, byte)),
                ("definition", separator != 0 && byte == separator),
            );
        }
    }
    report.close(group);
}
