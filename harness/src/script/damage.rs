//! How damaged scripts are drawn at random. Each starts from a whole one, and
//! some have bytes behind the damage, which must not be looked at.

use super::draw::{compiled_word, refused_word, Draw};
use super::records::{Script, BODIES, CALLS, OPEN, TEXT};
use super::{draw, records};
use crate::readers::call::{READERS, SPECIAL};
use crate::rng::Rng;
use crate::word::draw::accepted_word;

pub const DAMAGES: [(&str, Draw); 7] = [
    ("cut anywhere", cut),
    ("a byte changed", byte_changed),
    ("an unknown kind", unknown_kind),
    ("a reader byte above 3", unknown_reader),
    ("a record out of turn", out_of_turn),
    ("records in any order", any_order),
    ("any bytes", any_bytes),
];

fn cut(rng: &mut Rng) -> Script {
    let Script(mut bytes) = draw::whole(rng);
    bytes.truncate(rng.below(bytes.len() as u64 + 1) as usize);
    Script(bytes)
}

/// Mostly to a small number, so that it is often a kind or a reader.
fn byte_changed(rng: &mut Rng) -> Script {
    let Script(mut bytes) = draw::whole(rng);
    let place = rng.below(bytes.len() as u64) as usize;
    bytes[place] = small_byte(rng);
    Script(bytes)
}

fn unknown_kind(rng: &mut Rng) -> Script {
    let kind = rng.byte_between(BODIES.len() as u8, 255);
    with_inserted(rng, &[kind])
}

fn unknown_reader(rng: &mut Rng) -> Script {
    let kind = rng.pick(&CALLS);
    let reader = rng.byte_between(SPECIAL + 1, 255);
    let mut record = vec![kind, reader];
    record.resize_with(1 + BODIES[usize::from(kind)], || rng.byte());
    with_inserted(rng, &record)
}

/// A whole record of any kind between any two others: a call before the open,
/// text or an open after it, or one that may stand there.
fn out_of_turn(rng: &mut Rng) -> Script {
    let Script(record) = any_record(rng, Script::default());
    with_inserted(rng, &record)
}

fn any_order(rng: &mut Rng) -> Script {
    let count = rng.below(12);
    (0..count).fold(Script::default(), |script, _| any_record(rng, script))
}

fn any_bytes(rng: &mut Rng) -> Script {
    let length = rng.below(40);
    Script((0..length).map(|_| small_byte(rng)).collect())
}

fn small_byte(rng: &mut Rng) -> u8 {
    if rng.percent(70) {
        rng.byte_between(0, BODIES.len() as u8)
    } else {
        rng.byte()
    }
}

fn any_record(rng: &mut Rng, script: Script) -> Script {
    let kind = rng.below(BODIES.len() as u64) as u8;
    let mut record = vec![kind];
    match kind {
        OPEN => return any_open(rng, script),
        TEXT => {}
        _ => record.push(rng.pick(&READERS)),
    }
    record.resize_with(1 + BODIES[usize::from(kind)], || rng.byte());
    script.raw(&record)
}

/// Of the accepted words some are any: they may be last in a script.
fn any_open(rng: &mut Rng, script: Script) -> Script {
    let word = match rng.below(4) {
        0 => refused_word(rng),
        1 => accepted_word(rng),
        _ => compiled_word(rng),
    };
    script.open(word)
}

/// The bytes between two records of a whole script. In some cases they are all
/// that follows, or anything follows.
fn with_inserted(rng: &mut Rng, bytes: &[u8]) -> Script {
    let Script(whole) = draw::whole(rng);
    let (before, after) = whole.split_at(boundary(rng, &whole));
    let script = Script(before.to_vec()).raw(bytes);
    match rng.below(3) {
        0 => script,
        1 => script.raw(after),
        _ => script.then(&any_bytes(rng)),
    }
}

/// A place where a record begins, or the end.
fn boundary(rng: &mut Rng, input: &[u8]) -> usize {
    let mut places = vec![0];
    let mut place = 0;
    while place < input.len() {
        place += records::length(&input[place..]);
        places.push(place);
    }
    rng.pick(&places)
}
