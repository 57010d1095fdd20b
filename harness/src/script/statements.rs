//! A call script as the text that tools/script assembles.

use crate::readers::call::{Call, Step, COUNTED};
use crate::readers::sets::{name, NONE};
use crate::word::{reader_flags, Field, Word, SPECIAL_SEPARATOR};

const READERS: [&str; 4] = ["integer", "fraction", "exponent", "special"];

/// Text and an open. Without any text there is only the open.
pub fn opening(text: &[u8], word: Word) -> Vec<String> {
    let text = (!text.is_empty()).then(|| self::text(text));
    text.into_iter().chain([open(word)]).collect()
}

pub fn call(Step { reader, call }: Step) -> String {
    let reader = READERS[usize::from(reader)];
    match call {
        Call::Peek => format!("peek {reader}"),
        Call::Next => format!("take {reader}"),
        Call::ReadIfValueCased(value) => format!("read {reader} {}", byte(value)),
        Call::SkipZeros => format!("zeros {reader}"),
        Call::TakeN(n) => format!("block {reader} {n}"),
        Call::NextAll | Call::ReadIf(_) | Call::DigitRun => panic!("a script has no {call}"),
    }
}

/// As it is where every byte stands for itself and the text is no keyword.
fn text(text: &[u8]) -> String {
    if text.iter().all(|&byte| is_plain(byte)) && text != b"hex" {
        return format!("text {}", String::from_utf8_lossy(text));
    }
    let bytes = text.iter().map(|byte| format!(" {byte:02X}"));
    format!("text hex{}", bytes.collect::<String>())
}

/// By settings, where these are all that the word has.
fn open(word: Word) -> String {
    if word != with_settings_only(word) {
        return format!("open word {:016X} {:016X}", word.hi(), word.lo());
    }
    let mut open = String::from("open");
    match word.field(Field::Separator) {
        0 => {}
        separator => open += &format!(" {}", byte(separator)),
    }
    for reader in COUNTED {
        match word.reader_set(reader) {
            NONE => {}
            set => open += &format!(" {} {}", READERS[usize::from(reader)], name(set)),
        }
    }
    if word.lo() & SPECIAL_SEPARATOR != 0 {
        open += " special";
    }
    open += &format!(" radix {}", word.field(Field::MantissaRadix));
    match word.field(Field::ExponentRadix) {
        0 => {}
        radix => open += &format!(" exponent-radix {radix}"),
    }
    open
}

/// The word without all that `open` has no setting for.
fn with_settings_only(word: Word) -> Word {
    let fields = [Field::Separator, Field::MantissaRadix, Field::ExponentRadix];
    let flags = COUNTED.map(|reader| reader_flags(reader, word.reader_set(reader)));
    let special = word.lo() & SPECIAL_SEPARATOR;
    let none = Word::from_halves(flags.iter().sum::<u64>() | special, 0);
    fields.into_iter().fold(none, |kept, field| {
        kept.with_field(field, word.field(field))
    })
}

fn byte(byte: u8) -> String {
    match is_plain(byte) {
        true => char::from(byte).to_string(),
        false => format!("0x{byte:02X}"),
    }
}

/// Whether a byte may stand for itself: not a blank, a quote, or what begins a
/// comment.
fn is_plain(byte: u8) -> bool {
    byte.is_ascii_alphanumeric() || b"_.,+-'".contains(&byte)
}
