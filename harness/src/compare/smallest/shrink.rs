//! Makes an input smaller step by step, as long as something still holds of it.

use super::{smaller, Input};

/// The input after every step of `smaller` that keeps it, none of which is left.
/// It ends: each step makes something smaller, and none that comes before it in
/// the order of `smaller::candidates` larger.
pub fn shrink(input: &Input, keeps: &dyn Fn(&Input) -> bool) -> Input {
    let mut smallest = input.clone();
    while let Some(next) = smaller::candidates(&smallest).into_iter().find(keeps) {
        smallest = next;
    }
    smallest
}
