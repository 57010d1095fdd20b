//! Texts: none, full, and one byte more.

use super::{case, Case};
use crate::readers::call::INTEGER;
use crate::readers::sets::{C, I};
use crate::readers::words::with_integer_flags;
use crate::script::records::{Script, LONGEST_TEXT, TEXT};

pub fn cases() -> Vec<Case> {
    let full = Script::default().text(&[b'1'; LONGEST_TEXT]);
    let nearly = Script::default().text(&[b'1'; LONGEST_TEXT - 1]);
    let open = |script: Script| script.open(with_integer_flags(I));
    let refused_open = |script: Script| script.open(with_integer_flags(C));
    let any_byte: Vec<u8> = (0..=255).collect();
    vec![
        case("empty input", Script::default()),
        case("text alone prints nothing", Script::default().text(b"1_2")),
        case(
            "text of every byte, taken",
            open(Script::default().text(&any_byte)).takes(INTEGER, 257),
        ),
        case("4,096 text bytes", full.clone()),
        case("4,097 text bytes", full.clone().text(b"1")),
        case(
            "4,096 text bytes, opened and taken",
            open(full.clone()).takes(INTEGER, 2),
        ),
        case(
            "4,096 text bytes, each skipped at once",
            open(Script::default().text(&[b'0'; LONGEST_TEXT])).zero_skip(INTEGER),
        ),
        case(
            "4,095 text bytes, a refused open, the last text byte, opened",
            open(refused_open(nearly.clone()).text(b"2")).take(INTEGER),
        ),
        case(
            "4,095 text bytes, a refused open, two text bytes",
            refused_open(nearly).text(b"22"),
        ),
        case(
            "4,097th text byte after a refused open",
            refused_open(full.clone()).text(b"1"),
        ),
        case(
            "4,097th text byte, the rest is not looked at",
            open(full.clone().text(b"1")).take(INTEGER),
        ),
        case("4,097th text byte cut short", full.clone().raw(&[TEXT])),
        case(
            "full text, text after an accepted open: turn is tested first",
            open(full).text(b"1"),
        ),
    ]
}
