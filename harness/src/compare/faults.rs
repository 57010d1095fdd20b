//! Tests of the comparison itself: it is run with answers that have one fault
//! each, and must find the fault and bring it down to what is written here.
//! Short scripts are searched in full, so that the script does not depend on
//! the seed.

mod answers;
mod runs;

use std::fmt::Display;

use super::comparison::{Asked, Comparison};
use super::smallest::{Input, Smallest, AS_A_SCRIPT, NO_SCRIPT};
use super::{lists, random};
use crate::group::{Group, Report};
use crate::readers::library;
use crate::readers::words::compiled;
use crate::rng::Rng;

/// Buffers for each reader of each word, and lists for each word.
const DRAWN: u32 = 60;

/// The most calls that any of the faults takes to be seen.
const MOST_CALLS: usize = 4;

/// The most bytes, but for a fault that shows on a longer text only.
const MOST_BYTES: usize = 4;

/// Between the lines of a script that is shown in one.
const BREAK: &str = " | ";

pub struct Fault {
    name: &'static str,
    asked: Asked,
    shown: Shown,
}

/// How a fault is told to people.
enum Shown {
    /// The smallest script, with what the two print.
    Script(&'static [&'static str]),
    /// No script shows it, so that it is told by a call on a buffer of so many
    /// bytes, with a reason that begins like this.
    Call { bytes: usize, reason: &'static str },
}

pub fn run(report: &mut Report, seed: u64) {
    let mut group = Group::new("comparison itself, faults found and made small");
    for fault in answers::FAULTS.iter().chain(&runs::FAULTS) {
        let by_call = first_of_calls(fault.asked, seed);
        check(&mut group, fault, "single calls", by_call);
        if let Shown::Script(_) = fault.shown {
            let by_list = first_of_lists(fault.asked, seed);
            check(&mut group, fault, "lists", by_list);
        }
    }
    report.close(group);
    report.close(nothing_without_fault());
}

fn first_of_calls(asked: Asked, seed: u64) -> Option<Input> {
    let mut comparison = Comparison::new("", asked);
    let mut rng = Rng::new(seed, "faults by calls");
    random::for_each_drawn(&mut rng, DRAWN, &mut |rust, case, call| {
        comparison.compare(rust, case, call);
    });
    comparison.first
}

fn first_of_lists(asked: Asked, seed: u64) -> Option<Input> {
    let mut comparison = lists::Comparison::new("", asked);
    comparison.draw(&mut Rng::new(seed, "faults by lists"), DRAWN);
    comparison.first
}

/// The fault is found, and told as it is written.
fn check(group: &mut Group, fault: &Fault, way: &str, found: Option<Input>) {
    let input = format_args!("{}, by {way}", fault.name);
    group.agree(&input, ("found", found.is_some()), ("harness", true));
    let Some(found) = found else {
        return;
    };
    let smallest = Smallest::of(&found, fault.asked);
    check_calls(group, &input, fault, &smallest.input);
    let lines = smallest.told(fault.asked);
    let (told, written) = match fault.shown {
        Shown::Script(written) => {
            let behind_heading = |line: &String| line == AS_A_SCRIPT;
            let mut told = lines.rsplit(behind_heading);
            (told.next().unwrap_or(&[]).join(BREAK), written.join(BREAK))
        }
        Shown::Call { reason, .. } => {
            let told = lines.last().and_then(|line| line.strip_prefix(NO_SCRIPT));
            let told = told.and_then(|told| told.get(..reason.len()));
            (
                told.unwrap_or("another line").to_string(),
                reason.to_string(),
            )
        }
    };
    group.agree(&input, ("told", told), ("written", written));
}

/// The calls that the input came down to still show the fault, and are few and
/// on a short buffer. It may be longer than the text of the smallest script: a
/// shorter one may want another word and other calls at once.
fn check_calls(group: &mut Group, input: &dyn Display, fault: &Fault, calls: &Input) {
    let parts = calls.parts(fault.asked).is_some();
    group.agree(input, ("still parts", parts), ("harness", true));
    let bytes = match fault.shown {
        Shown::Script(lines) => MOST_BYTES.max(lines[0].len() - "text ".len()),
        Shown::Call { bytes, .. } => bytes,
    };
    let is_small = calls.steps.len() <= MOST_CALLS && calls.buffer.len() <= bytes;
    group.agree(input, ("made small", is_small), ("harness", true));
}

/// Without a fault the search finds no script.
fn nothing_without_fault() -> Group {
    let mut group = Group::new("comparison itself, no script without a fault");
    let input = Input::of_list(compiled()[0], b"1_0x._", &[]);
    let found = Smallest::of(&input, library::call).script.is_some();
    group.agree(&"all short texts", ("found", found), ("harness", false));
    group
}
