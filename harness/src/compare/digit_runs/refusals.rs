//! Several faults at once: the first in the order of the tests is told, and nothing
//! is changed.

use crate::compare::lent::Lent;
use crate::group::{Group, Report};
use crate::readers::call::{Call, Case, COUNTED, SPECIAL};
use crate::readers::library::{self, RawState, CURSOR_AT, EDITION_AT, INTEGER_AT};
use crate::readers::refusal::{
    ABOVE_64_BITS, CONSECUTIVE_INTEGER, COUNTS_EXCEED_THE_CURSOR, CURSOR_PAST_THE_END, NO_DIGIT,
    SPECIAL_HAS_NO_SUCH_CALL, UNKNOWN_EDITION, UNKNOWN_READER,
};
use crate::readers::sets::{C, ILTC};
use crate::readers::words::DECIMAL;
use crate::word::reader_flags;

/// What a run is given.
struct Given {
    reader: u8,
    text: &'static [u8],
    state: RawState,
}

struct Fault {
    number: u32,
    /// What of a run it changes: two faults in the same place cannot meet.
    place: Place,
    put: fn(&mut Given),
}

#[derive(PartialEq)]
enum Place {
    Reader,
    Edition,
    Cursor,
    Counts,
    Flags,
    Text,
}

/// In the order of the tests.
fn faults(reader: u8) -> [Fault; 8] {
    let fault = |number, place, put| Fault { number, place, put };
    [
        fault(UNKNOWN_READER, Place::Reader, |given| {
            given.reader += SPECIAL + 1;
        }),
        fault(UNKNOWN_EDITION, Place::Edition, |given| {
            given.state[EDITION_AT] = 1;
        }),
        fault(CURSOR_PAST_THE_END, Place::Cursor, |given| {
            given.state[CURSOR_AT] = 100;
        }),
        // More than any cursor, and little if the sum wraps.
        fault(COUNTS_EXCEED_THE_CURSOR, Place::Counts, |given| {
            given.state[INTEGER_AT] = u64::MAX;
            given.state[INTEGER_AT + 2] = 1;
        }),
        fault(SPECIAL_HAS_NO_SUCH_CALL, Place::Reader, |given| {
            given.reader = SPECIAL;
        }),
        fault(
            CONSECUTIVE_INTEGER + u32::from(reader),
            Place::Flags,
            |given| given.state[0] = consecutive_alone(),
        ),
        fault(NO_DIGIT, Place::Text, |given| given.text = b"_.18"),
        fault(ABOVE_64_BITS, Place::Text, |given| {
            given.text = b"_1844674407370955161_6";
        }),
    ]
}

fn consecutive_alone() -> u64 {
    COUNTED.map(|reader| reader_flags(reader, C)).iter().sum()
}

pub fn run(report: &mut Report) {
    let mut group = Group::new("digit runs, several faults at once");
    for reader in COUNTED {
        let faults = faults(reader);
        for chosen in 1..1_u32 << faults.len() {
            let is_chosen = |place: usize| chosen >> place & 1 == 1;
            let faults = faults.iter().enumerate();
            let faults: Vec<&Fault> = faults
                .filter(|&(place, _)| is_chosen(place))
                .map(|(_, fault)| fault)
                .collect();
            if can_meet(&faults) {
                compare(&mut group, reader, &faults);
            }
        }
    }
    report.close(group);
}

fn can_meet(faults: &[&Fault]) -> bool {
    let differ = |place: usize| {
        let others = &faults[place + 1..];
        others
            .iter()
            .all(|other| other.place != faults[place].place)
    };
    (0..faults.len()).all(differ)
}

fn compare(group: &mut Group, reader: u8, faults: &[&Fault]) {
    let mut given = without_fault(reader);
    faults.iter().for_each(|fault| (fault.put)(&mut given));
    let numbers: Vec<u32> = faults.iter().map(|fault| fault.number).collect();
    let Given {
        reader,
        text,
        state,
    } = given;
    group.agree(
        &format_args!("reader {reader}, faults {numbers:?}"),
        ("library", Lent::to(Call::DigitRun, text, reader, state)),
        ("first fault", Lent::refused(numbers[0], state)),
    );
}

/// A run that is accepted and passes a separator first.
fn without_fault(reader: u8) -> Given {
    let text = b"_12";
    let word = DECIMAL.with_bits(reader_flags(reader, ILTC));
    Given {
        reader,
        text,
        state: library::raw(&Case::fresh(word, text, reader)),
    }
}
