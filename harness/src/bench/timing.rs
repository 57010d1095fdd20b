//! Times several ways of doing the same work, side by side.

use std::time::Instant;

/// Odd, so that the median is one of the rounds.
pub const ROUNDS: usize = 15;

/// One way: does the work once, and answers a checksum over all its answers.
pub type Pass<'a> = &'a dyn Fn() -> u64;

/// A way that has to be undone before it can be taken again, which is not timed.
pub struct Undone<'a> {
    pub pass: Box<dyn Fn() -> u64 + 'a>,
    pub undo: Box<dyn Fn() -> u64 + 'a>,
}

/// Nanoseconds per unit of the work in each round, and a sum of the checksums,
/// which shows whether all ways gave the same answers.
#[derive(Default)]
pub struct Timing {
    rounds: Vec<f64>,
    checksum: u64,
}

/// The median of some rounds, with the least and the most.
#[derive(Clone, Copy)]
pub struct Span {
    pub least: f64,
    pub median: f64,
    pub most: f64,
}

impl Span {
    fn of(rounds: impl Iterator<Item = f64>) -> Self {
        let mut rounds: Vec<f64> = rounds.collect();
        rounds.sort_by(f64::total_cmp);
        Self {
            least: rounds[0],
            median: rounds[rounds.len() / 2],
            most: rounds[rounds.len() - 1],
        }
    }
}

/// Rounds of all ways in turn, each going first as often as the others, so that
/// a slow moment of the machine falls on all. A round is so many passes that
/// the clock's own steps vanish.
pub fn time_in_turn<const WAYS: usize>(
    ways: [Pass; WAYS],
    units: usize,
    passes: u32,
) -> [Timing; WAYS] {
    for way in ways {
        way();
    }
    take_turns(|timing, way| timing.add_round(ways[way], units, passes))
}

/// The same for ways that have to be undone. The clock is read around each pass, so that
/// a pass should be long enough for that to vanish.
pub fn time_undone_in_turn<const WAYS: usize>(
    ways: [&Undone; WAYS],
    units: usize,
    passes: u32,
) -> [Timing; WAYS] {
    for way in ways {
        (way.pass)();
        (way.undo)();
    }
    take_turns(|timing, way| timing.add_undone_round(ways[way], units, passes))
}

fn take_turns<const WAYS: usize>(add_round: impl Fn(&mut Timing, usize)) -> [Timing; WAYS] {
    let mut timings = [(); WAYS].map(|()| Timing::default());
    for round in 0..ROUNDS {
        for turn in 0..WAYS {
            let next = (round + turn) % WAYS;
            add_round(&mut timings[next], next);
        }
    }
    timings
}

/// A ratio with two decimals, or a small one with as many as show two of its
/// figures.
pub fn ratio_text(ratio: f64) -> String {
    let mut decimals = 2;
    while decimals < 6 && ratio * 10f64.powi(decimals) < 9.5 {
        decimals += 1;
    }
    format!("{ratio:.*}", decimals as usize)
}

pub fn agree(timings: &[Timing]) -> bool {
    timings
        .windows(2)
        .all(|pair| pair[0].checksum == pair[1].checksum)
}

impl Timing {
    fn add_round(&mut self, pass: Pass, units: usize, passes: u32) {
        let start = Instant::now();
        for _ in 0..passes {
            self.checksum = self.checksum.wrapping_add(pass());
        }
        let elapsed = start.elapsed().as_nanos() as f64;
        self.rounds
            .push(elapsed / (units as f64 * f64::from(passes)));
    }

    fn add_undone_round(&mut self, way: &Undone, units: usize, passes: u32) {
        let mut elapsed = 0;
        for _ in 0..passes {
            let start = Instant::now();
            let checksum = (way.pass)();
            elapsed += start.elapsed().as_nanos();
            self.checksum = self.checksum.wrapping_add(checksum);
            self.checksum = self.checksum.wrapping_add((way.undo)());
        }
        self.rounds
            .push(elapsed as f64 / (units as f64 * f64::from(passes)));
    }

    /// Units of the work in a second.
    pub fn per_second(&self) -> f64 {
        1e9 / self.median()
    }

    /// How many times as long this took. Rounds of the same number are compared,
    /// which lie side by side, so that a slow time of the machine falls on both.
    pub fn to(&self, other: &Self) -> Span {
        let rounds = self.rounds.iter().zip(&other.rounds);
        Span::of(rounds.map(|(own, others)| own / others))
    }

    pub fn ratio(&self, other: &Self) -> f64 {
        self.to(other).median
    }

    pub fn median(&self) -> f64 {
        self.span().median
    }

    pub fn cell(&self) -> String {
        let Span {
            least,
            median,
            most,
        } = self.span();
        format!("{median:.2} ({least:.2} to {most:.2})")
    }

    fn span(&self) -> Span {
        Span::of(self.rounds.iter().copied())
    }
}
