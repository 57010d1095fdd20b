//! What is timed: sheets that fill a catalogue, and schools that are sought in it.

use super::sides::Side;
use crate::catalogue::draw::{self, shuffled, Words};
use crate::catalogue::PLACES;
use crate::readers::refusal::ACCEPTED;
use crate::rng::Rng;
use crate::word::Word;

/// How often each school comes before it all begins again, each time in another order, so
/// that the branch predictor does not learn the order.
const TIMES: usize = 64;

pub struct Input {
    /// One for each place, in no order.
    pub sheets: Vec<(u16, Word)>,
    /// The same over and over.
    pub moved: Vec<(u16, Word)>,
    /// Their schools.
    pub listed: Vec<u16>,
    /// As many schools that are not listed.
    pub others: Vec<u16>,
    /// Orders of the sheets.
    pub orders: Vec<Vec<usize>>,
}

impl Input {
    pub fn draw(seed: u64) -> Self {
        let mut rng = Rng::new(seed, "bench catalogue");
        let words = Words::draw(&mut rng);
        // Without 0, which is no school.
        let pool = draw::pool(&mut rng, 2 * PLACES + 1).split_off(1);
        let (listed, others) = pool.split_at(PLACES);
        let sheet = |&school: &u16| (school, words.pick_accepted(&mut rng));
        let sheets: Vec<(u16, Word)> = listed.iter().map(sheet).collect();
        let moved = again(&mut rng, &sheets);
        Self {
            listed: moved.iter().map(|&(school, _)| school).collect(),
            others: again(&mut rng, others),
            orders: orders(&mut rng),
            moved,
            sheets,
        }
    }

    pub fn full<S: Side>(&self) -> S {
        filled(&self.sheets)
    }

    /// A catalogue for each sheet, full but for that one.
    pub fn each_lacking_one<S: Side>(&self) -> Vec<S> {
        let lacking = |&(school, _): &(u16, Word)| {
            let mut side = self.full::<S>();
            assert!(side.remove(school) == ACCEPTED, "a school that is listed");
            side
        };
        self.sheets.iter().map(lacking).collect()
    }
}

fn again<T: Copy>(rng: &mut Rng, list: &[T]) -> Vec<T> {
    (0..TIMES).flat_map(|_| shuffled(rng, list)).collect()
}

fn orders(rng: &mut Rng) -> Vec<Vec<usize>> {
    let places: Vec<usize> = (0..PLACES).collect();
    (0..TIMES).map(|_| shuffled(rng, &places)).collect()
}

fn filled<S: Side>(sheets: &[(u16, Word)]) -> S {
    let mut side = S::empty();
    for &(school, word) in sheets {
        assert!(side.add(school, word) == ACCEPTED, "a sheet for each place");
    }
    side
}
