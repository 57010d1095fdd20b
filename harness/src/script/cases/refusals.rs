//! Each refusal that stops the run, at each place where it can arise.

use super::{case, Case};
use crate::readers::call::{INTEGER, SPECIAL};
use crate::readers::sets::{C, I};
use crate::readers::words::with_integer_flags;
use crate::script::places::{places, Place};
use crate::script::records::{Script, BLOCK, BODIES, CALLS, OPEN, READ, TEXT};
use crate::word::Word;

const NAMES: [&str; 7] = ["text", "open", "peek", "take", "read", "zero skip", "block"];

pub fn cases() -> Vec<Case> {
    let mut cases = Vec::new();
    for place in places() {
        cases.extend(unknown_kinds(&place));
        cases.extend(unknown_readers(&place));
        cases.extend(cuts(&place));
        cases.extend(out_of_turn(&place));
    }
    cases.extend(not_looked_at());
    cases
}

fn unknown_kinds(place: &Place) -> Vec<Case> {
    [7, 8, b'1', 0x80, 0xFF]
        .map(|kind| {
            let name = format!("unknown kind {kind} {}", place.name);
            case(name, place.before.clone().raw(&[kind]))
        })
        .into()
}

fn unknown_readers(place: &Place) -> Vec<Case> {
    let mut cases = Vec::new();
    for kind in CALLS {
        for reader in [SPECIAL + 1, 0xFF] {
            let name = format!("{} by reader {reader} {}", named(kind), place.name);
            cases.push(case(name, place.before.clone().then(&record(kind, reader))));
        }
    }
    cases
}

/// Every kind with every number of bytes less than it asks for.
fn cuts(place: &Place) -> Vec<Case> {
    let Script(word) = Script::default().open(with_integer_flags(I));
    let mut cases = Vec::new();
    for (kind, body) in BODIES.into_iter().enumerate() {
        let kind = kind as u8;
        let Script(whole) = match kind {
            OPEN => Script(word.clone()),
            _ => record(kind, INTEGER),
        };
        for length in 0..body {
            let name = format!(
                "{} with {length} of {body} bytes {}",
                named(kind),
                place.name
            );
            cases.push(case(name, place.before.clone().raw(&whole[..=length])));
        }
    }
    cases
}

/// Calls before an accepted open; text and opens after one.
fn out_of_turn(place: &Place) -> Vec<Case> {
    let before = &place.before;
    if !place.is_open {
        return CALLS
            .map(|kind| {
                let name = format!("{} {}: out of turn", named(kind), place.name);
                case(name, before.clone().then(&record(kind, INTEGER)))
            })
            .into();
    }
    let opens: [(&str, Word); 3] = [
        ("the same word again", with_integer_flags(I)),
        ("another word", with_integer_flags(0)),
        ("a word that would be refused", with_integer_flags(C)),
    ];
    let mut cases = vec![case(
        format!("text {}: out of turn", place.name),
        before.clone().text(b"3"),
    )];
    for (what, word) in opens {
        let name = format!("open with {what} {}: out of turn", place.name);
        cases.push(case(name, before.clone().open(word)));
    }
    cases
}

/// A stop ends the run: nothing behind it is looked at.
fn not_looked_at() -> Vec<Case> {
    let whole = Script::default()
        .text(b"1_2")
        .open(with_integer_flags(I))
        .takes(INTEGER, 2);
    let behind = |name: &str, stop: &[u8]| {
        let name = format!("a whole run behind {name} is not looked at");
        case(name, Script(stop.to_vec()).then(&whole))
    };
    let mut cases = vec![
        behind("an unknown kind", &[7]),
        behind("an unknown reader", &[2, 4]),
        behind("a call out of turn", &[3, 0]),
    ];
    let twice = whole.clone().then(&whole);
    cases.push(case("a whole run twice: the second is out of turn", twice));
    cases
}

/// A whole record with this for its first byte, a text byte or a reader.
fn record(kind: u8, first: u8) -> Script {
    let script = Script(vec![kind, first]);
    match kind {
        READ => script.raw(b"1"),
        BLOCK => script.raw(&[1, 0, 0, 0]),
        TEXT | OPEN => Script(vec![kind, b'1']),
        _ => script,
    }
}

fn named(kind: u8) -> &'static str {
    NAMES[usize::from(kind)]
}
