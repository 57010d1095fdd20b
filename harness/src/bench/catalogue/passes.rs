//! What is done in one pass. Each answers a checksum over all its answers.

use std::cell::{Cell, RefCell};
use std::hint::black_box;
use std::rc::Rc;

use super::input::Input;
use super::sides::Side;
use crate::bench::timing::Undone;
use crate::word::Word;

/// One pass of one side, on catalogues of its own.
pub type OwnPass<'a> = Box<dyn Fn() -> u64 + 'a>;

pub fn look_ups<'a, S: Side + 'a>(input: &Input, sought: &'a [u16]) -> OwnPass<'a> {
    let side = RefCell::new(input.full::<S>());
    Box::new(move || look_up_all(&mut *side.borrow_mut(), sought))
}

pub fn counts<'a, S: Side + 'a>(input: &Input) -> OwnPass<'a> {
    let side = RefCell::new(input.full::<S>());
    Box::new(move || count(&mut *side.borrow_mut()))
}

/// Each school is removed from a full catalogue and added again.
pub fn moves<'a, S: Side + 'a>(input: &'a Input) -> OwnPass<'a> {
    let side = RefCell::new(input.full::<S>());
    Box::new(move || move_all(&mut *side.borrow_mut(), &input.moved))
}

/// A sheet is added to each of many catalogues, another to each.
pub fn adds<'a, S: Side + 'a>(input: &'a Input) -> Undone<'a> {
    let each = Rc::new(Each {
        sides: RefCell::new(input.each_lacking_one::<S>()),
        input,
        turn: Cell::new(0),
    });
    let same = Rc::clone(&each);
    Undone {
        pass: Box::new(move || each.add()),
        undo: Box::new(move || same.remove()),
    }
}

/// The same the other way about.
pub fn removals<'a, S: Side + 'a>(input: &'a Input) -> Undone<'a> {
    let Undone { pass, undo } = adds::<S>(input);
    pass();
    Undone {
        pass: undo,
        undo: pass,
    }
}

/// A catalogue for each sheet, gone through in another order at each pass.
struct Each<'a, S> {
    sides: RefCell<Vec<S>>,
    input: &'a Input,
    turn: Cell<usize>,
}

impl<S: Side> Each<'_, S> {
    fn add(&self) -> u64 {
        add_each(
            &mut self.sides.borrow_mut(),
            &self.input.sheets,
            self.order(),
        )
    }

    fn remove(&self) -> u64 {
        remove_each(
            &mut self.sides.borrow_mut(),
            &self.input.sheets,
            self.order(),
        )
    }

    fn order(&self) -> &[usize] {
        let turn = self.turn.replace(self.turn.get() + 1);
        &self.input.orders[turn % self.input.orders.len()]
    }
}

// Generic, so that nothing stands between a loop and its calls; never inlined, so that
// each side has one loop for all rounds.

#[inline(never)]
fn look_up_all(side: &mut impl Side, schools: &[u16]) -> u64 {
    let words = black_box(schools).iter().map(|&school| side.find(school));
    words.fold(0, u64::wrapping_add)
}

#[inline(never)]
fn count(side: &mut impl Side) -> u64 {
    black_box(side).separators()
}

#[inline(never)]
fn move_all(side: &mut impl Side, sheets: &[(u16, Word)]) -> u64 {
    let mut numbers = 0;
    for &(school, word) in black_box(sheets) {
        numbers += u64::from(side.remove(school));
        numbers += u64::from(side.add(school, word));
    }
    numbers + side.separators()
}

#[inline(never)]
fn add_each<S: Side>(sides: &mut [S], sheets: &[(u16, Word)], order: &[usize]) -> u64 {
    let add = |&each: &usize| {
        let (school, word) = sheets[each];
        u64::from(sides[each].add(school, word))
    };
    black_box(order).iter().map(add).sum()
}

#[inline(never)]
fn remove_each<S: Side>(sides: &mut [S], sheets: &[(u16, Word)], order: &[usize]) -> u64 {
    let remove = |&each: &usize| {
        let (school, _) = sheets[each];
        u64::from(sides[each].remove(school))
    };
    black_box(order).iter().map(remove).sum()
}
