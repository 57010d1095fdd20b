//! Looks for a call script on which the two print different lines. A script
//! starts from a fresh state under a word that the check accepts, so that what
//! was found from another state has to be reached by calls.

use std::collections::HashSet;

use super::script::Script;
use super::{shrink, Input};
use crate::compare::comparison::Asked;
use crate::compare::small::{alphabet, for_each_of_length};
use crate::readers::call::{Call, Case, State, Step, READERS};
use crate::readers::compiled::Readers;
use crate::readers::refusal::ACCEPTED;
use crate::readers::words::compiled;
use crate::script::{has_record, line};
use crate::word::oracle as checks;

/// The longest text that is gone through in full, under every accepted word.
const LONGEST_TEXT: usize = 3;

/// The most calls of a list on such a text.
const MOST_CALLS: usize = 4;

/// What was tried on short texts without finding a script, in words.
pub fn tried_on_short_texts() -> String {
    format!("no list of up to {MOST_CALLS} calls on up to {LONGEST_TEXT} bytes shows it otherwise")
}

/// Where a search on a longer text gives up.
const MOST_STATES: usize = 20_000;

/// The smallest script: of the shortest text, under the first word in which any
/// shows a difference, with the fewest calls. Where no short text does, one on
/// the input's own buffer, with the input's own calls among those tried.
pub fn script(input: &Input, asked: Asked) -> Option<Script> {
    let on_short_texts = (0..=LONGEST_TEXT)
        .find_map(|length| accepted_words().find_map(|rust| fewest_calls(rust, length, asked)));
    on_short_texts.or_else(|| on_own_buffer(input, asked))
}

fn on_own_buffer(input: &Input, asked: Asked) -> Option<Script> {
    let Input {
        rust,
        buffer,
        steps,
        ..
    } = input;
    if checks::format_error(rust.word()) != ACCEPTED {
        return None;
    }
    let mut menu = menu(buffer);
    menu.extend(steps.iter().filter(|step| has_record(step.call)));
    let script = list_on(*rust, buffer, &menu, 2 * buffer.len() + 2, asked)?;
    let differs = |input: &Input| Script(input.clone()).differs(asked);
    Some(Script(shrink::shrink(&script.0, &differs)))
}

fn accepted_words() -> impl Iterator<Item = &'static dyn Readers> {
    let all = compiled().iter().copied();
    all.filter(|rust| checks::format_error(rust.word()) == ACCEPTED)
}

fn fewest_calls(rust: &'static dyn Readers, length: usize, asked: Asked) -> Option<Script> {
    let mut fewest: Option<Script> = None;
    for_each_of_length(alphabet(rust.word()), length, &mut |buffer| {
        let most_calls = fewest
            .as_ref()
            .map_or(MOST_CALLS, |script| script.calls() - 1);
        let menu = menu(buffer);
        if let Some(script) = list_on(rust, buffer, &menu, most_calls, asked) {
            fewest = Some(script);
        }
    });
    fewest
}

/// Where a list has brought the two.
#[derive(Clone, Copy, PartialEq, Eq, Hash)]
struct Reached {
    rust: State,
    asked: State,
}

/// The shortest list of up to so many calls whose last prints two lines: all
/// that a call more can reach, call by call, each pair of states once.
fn list_on(
    rust: &'static dyn Readers,
    buffer: &[u8],
    menu: &[Step],
    most_calls: usize,
    asked: Asked,
) -> Option<Script> {
    let fresh = Reached {
        rust: State::default(),
        asked: State::default(),
    };
    let mut seen = HashSet::from([fresh]);
    let mut lists = vec![(fresh, Vec::new())];
    for _ in 0..most_calls {
        let mut longer = Vec::new();
        for (reached, list) in &lists {
            for &step in menu {
                let more = || [list.as_slice(), &[step]].concat();
                match go_on(rust, buffer, *reached, step, asked) {
                    None => return Some(Script(Input::of_list(rust, buffer, &more()))),
                    Some(next) if seen.insert(next) => longer.push((next, more())),
                    Some(_) => {}
                }
            }
        }
        if seen.len() > MOST_STATES {
            return None;
        }
        lists = longer;
    }
    None
}

/// Where the two are after one call more, or none where their lines differ.
fn go_on(
    rust: &'static dyn Readers,
    buffer: &[u8],
    reached: Reached,
    Step { reader, call }: Step,
    asked: Asked,
) -> Option<Reached> {
    let case = |state| Case {
        state,
        ..Case::fresh(rust.word(), buffer, reader)
    };
    let expected = rust.call(&case(reached.rust), call);
    let answer = asked(&case(reached.asked), call);
    let same = answer == expected || line(call, &answer) == line(call, &expected);
    same.then_some(Reached {
        rust: expected.state,
        asked: answer.state,
    })
}

/// The calls that are worth trying on a text: its bytes and a zero are read.
fn menu(buffer: &[u8]) -> Vec<Step> {
    let mut values = [buffer, b"0"].concat();
    values.sort_unstable();
    values.dedup();
    let mut calls = vec![Call::Peek, Call::Next, Call::SkipZeros];
    calls.extend([0, 1, 2].map(Call::TakeN));
    calls.extend(values.into_iter().map(Call::ReadIfValueCased));
    let by_all = |&call: &Call| READERS.map(|reader| Step { reader, call });
    calls.iter().flat_map(by_all).collect()
}
