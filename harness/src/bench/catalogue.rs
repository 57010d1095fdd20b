//! Times the catalogue of school sheets beside a `BTreeMap` from school to word.

mod input;
mod passes;
mod sides;

use std::process::ExitCode;

use self::input::Input;
use self::passes::{adds, counts, look_ups, moves, removals};
use self::sides::{Rattle, Tree};
use super::timing::{agree, ratio_text, time_in_turn, time_undone_in_turn, Timing, Undone, ROUNDS};

/// The map with and without the crate's full check of each word that is added.
type Checked = Tree<true>;
type Unchecked = Tree<false>;

/// Passes in one round: over the schools that are sought or moved, over a catalogue for
/// each place, and over one question.
const PASSES: u32 = 40;
const PASSES_OF_EACH: u32 = 640;
const PASSES_OF_ONE: u32 = 40_000;

pub fn run(seed: u64) -> ExitCode {
    let input = Input::draw(seed);
    print_head();
    let questions = [
        (
            "look-up of a listed school",
            time_look_ups(&input, &input.listed),
        ),
        (
            "look-up of one that is not listed",
            time_look_ups(&input, &input.others),
        ),
        ("how many use a separator", time_counts(&input)),
    ];
    let acts = [
        ("addition to 63", time_adds(&input)),
        ("removal from 64", time_removals(&input)),
        ("removal and addition, the two together", time_moves(&input)),
    ];
    questions
        .iter()
        .for_each(|(name, timings)| print_question(name, timings));
    acts.iter()
        .for_each(|(name, timings)| print_act(name, timings));
    let questions_agree = questions.iter().all(|(_, timings)| agree(timings));
    match questions_agree && acts.iter().all(|(_, timings)| agree(timings)) {
        true => ExitCode::SUCCESS,
        false => super::tell_difference(),
    }
}

fn time_look_ups(input: &Input, sought: &[u16]) -> [Timing; 2] {
    let ways = [
        look_ups::<Checked>(input, sought),
        look_ups::<Rattle>(input, sought),
    ];
    time_in_turn(ways.each_ref().map(|way| &**way), sought.len(), PASSES)
}

fn time_counts(input: &Input) -> [Timing; 2] {
    let ways = [counts::<Checked>(input), counts::<Rattle>(input)];
    time_in_turn(ways.each_ref().map(|way| &**way), 1, PASSES_OF_ONE)
}

fn time_adds(input: &Input) -> [Timing; 3] {
    let ways = [
        adds::<Unchecked>(input),
        adds::<Checked>(input),
        adds::<Rattle>(input),
    ];
    time_each(input, ways)
}

fn time_removals(input: &Input) -> [Timing; 3] {
    let ways = [
        removals::<Unchecked>(input),
        removals::<Checked>(input),
        removals::<Rattle>(input),
    ];
    time_each(input, ways)
}

fn time_each(input: &Input, ways: [Undone; 3]) -> [Timing; 3] {
    time_undone_in_turn(ways.each_ref(), input.sheets.len(), PASSES_OF_EACH)
}

fn time_moves(input: &Input) -> [Timing; 3] {
    let ways = [
        moves::<Unchecked>(input),
        moves::<Checked>(input),
        moves::<Rattle>(input),
    ];
    let ways = ways.each_ref().map(|way| &**way);
    time_in_turn(ways, input.moved.len(), PASSES)
}

fn print_head() {
    println!(
        "\n**Catalogue of school sheets, 64 listed**, ns per call: median of {ROUNDS} rounds (least to most).\n"
    );
    println!("| Call | Map, no check | Map | Rattle | Rattle / map, no check | Rattle / map |");
    println!("|---|---|---|---|---|---|");
}

/// A question checks no word, so that the map has one time for it.
fn print_question(name: &str, [map, rattle]: &[Timing; 2]) {
    println!(
        "| {name} | | {} | {} | | {} |",
        map.cell(),
        rattle.cell(),
        ratio_text(rattle.ratio(map))
    );
}

fn print_act(name: &str, [unchecked, map, rattle]: &[Timing; 3]) {
    println!(
        "| {name} | {} | {} | {} | {} | {} |",
        unchecked.cell(),
        map.cell(),
        rattle.cell(),
        ratio_text(rattle.ratio(unchecked)),
        ratio_text(rattle.ratio(map))
    );
}
