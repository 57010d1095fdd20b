//! Scripts that arrive in pieces, most of them cut within a record. A piece is given
//! when the line that the last one brings about is printed: what the program has
//! answered, and the first bytes of a record behind it, it has read by then. So the
//! pieces come apart for certain, and no time is waited for.

use super::{case, Case};
use crate::readers::call::{FRACTION, INTEGER, SPECIAL};
use crate::readers::sets::{I, NONE};
use crate::readers::words::with_integer_flags;
use crate::rng::Rng;
use crate::script::long::bad_separator;
use crate::script::records::{Script, OPEN, TEXT};
use crate::script::{draw, records};

const DRAWN: usize = 8;

/// Longer scripts are drawn again, so that each can be read by eye.
const LONGEST: usize = 160;

pub fn cases(seed: u64) -> Vec<Case> {
    let mut cases: Vec<Case> = [
        ("the calls of document 01's example", example()),
        ("an open cut at each of its bytes", opens(16)),
        ("text that arrives in four pieces", texts()),
        ("reads and blocks cut at each of their bytes", calls()),
        ("an open that is cut short", opens(3).raw(&[OPEN, 0, 0])),
        ("text that is cut short", opens(3).raw(&[TEXT])),
        ("a call that is cut short", example().raw(&[2])),
        ("an unknown kind", example().raw(&[7, 3, 0])),
        (
            "a reader above 3",
            example().peek(SPECIAL + 1).peek(INTEGER),
        ),
        ("a call before an open", opens(2).peek(INTEGER)),
        ("text after an open", example().text(b"1")),
    ]
    .map(|(name, script)| in_pieces(name, script))
    .into();
    let mut rng = Rng::new(seed, "record pieces");
    cases.extend((1..=DRAWN).map(|place| in_pieces(&format!("drawn, {place}"), drawn(&mut rng))));
    cases
}

fn in_pieces(name: &str, script: Script) -> Case {
    let cuts = cuts(&script);
    Case {
        cuts,
        ..case(format!("in pieces: {name}"), script)
    }
}

/// Behind each record that prints a line and is not the last: within the next
/// record, at each of its bytes in turn.
fn cuts(Script(input): &Script) -> Vec<usize> {
    let mut cuts = Vec::new();
    let mut end = 0;
    while end < input.len() {
        let prints = input[end] != TEXT;
        end += records::length(&input[end..]);
        let next = records::length(&input[end..]);
        match next {
            0 => {}
            1 if prints => cuts.push(end),
            _ if prints => cuts.push(end + 1 + cuts.len() % (next - 1)),
            _ => {}
        }
    }
    cuts
}

fn example() -> Script {
    Script::default()
        .text(b"1_2")
        .open(with_integer_flags(I))
        .takes(INTEGER, 2)
        .peek(INTEGER)
}

/// So many refused opens, then one more.
fn opens(count: usize) -> Script {
    (0..=count).fold(Script::default(), |script, _| script.open(bad_separator()))
}

fn texts() -> Script {
    let pieces = ["1", "_", "23", "4"];
    let script = pieces.iter().fold(Script::default(), |script, piece| {
        script.open(bad_separator()).text(piece.as_bytes())
    });
    script.open(with_integer_flags(I)).takes(INTEGER, 5)
}

fn calls() -> Script {
    let script = Script::default()
        .text(b"0123456789")
        .open(with_integer_flags(NONE));
    (0..5).fold(script, |script, size| {
        script
            .zero_skip(FRACTION)
            .block(INTEGER, size)
            .read(INTEGER, b'1')
            .read(INTEGER, b'6')
    })
}

/// Whole scripts with a line and a record behind it.
fn drawn(rng: &mut Rng) -> Script {
    loop {
        let (input, _) = draw::with_output(rng, draw::whole);
        let script = Script(input);
        if script.0.len() <= LONGEST && cuts(&script).len() > 2 {
            return script;
        }
    }
}
