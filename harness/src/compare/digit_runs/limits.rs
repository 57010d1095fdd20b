//! Values around 2^64, written out from the numbers, so that what is due is known
//! without a fold.

mod style;

use std::iter::successors;

use self::style::{Style, STYLES};
use super::compare;
use crate::group::{Group, Report};
use crate::readers::words::DECIMAL;
use crate::rng::Rng;
use crate::word::Field;

/// The first value that is refused.
const ABOVE: u128 = 1 << 64;

/// Zeros before a number; the last are more than any number has digits.
const ZEROS: [usize; 4] = [0, 1, 17, 100];

/// Numbers drawn for each radix.
const DRAWN: u32 = 300;

pub fn run(report: &mut Report, seed: u64) {
    let mut group = Group::new("digit runs, around 2^64 in radixes 2 to 36");
    for radix in 2..=36 {
        for number in numbers(radix.into()) {
            let digits = digits(number, radix.into());
            for zeros in ZEROS {
                let digits = [vec![0; zeros], digits.clone()].concat();
                for style in &STYLES {
                    compare_digits(&mut group, radix, &digits, style, number);
                }
            }
        }
    }
    report.close(group);

    let mut group = Group::new("digit runs, as many digits as 2^64 in radixes 2 to 255");
    let mut rng = Rng::new(seed, "digits around 2^64");
    for radix in 2..=255 {
        for _ in 0..DRAWN {
            let digits = draw(&mut rng, radix);
            let number = by_places(&digits, radix.into());
            let style = &STYLES[rng.below(STYLES.len() as u64) as usize];
            compare_digits(&mut group, radix, &digits, style, number);
        }
    }
    report.close(group);
}

fn compare_digits(group: &mut Group, radix: u8, digits: &[u32], style: &Style, number: u128) {
    let word = DECIMAL.with_field(Field::MantissaRadix, radix);
    let value = u64::try_from(number).ok();
    style.with_case(word, digits, value, |case, due| compare(group, case, due));
}

fn numbers(radix: u128) -> Vec<u128> {
    let last = ABOVE - 1;
    let mut numbers: Vec<u128> = (ABOVE - 3..=ABOVE + 3).collect();
    // Every last digit behind the others of the last value, and one more before it.
    let others = last / radix * radix;
    numbers.extend(others..=others + 2 * radix);
    // One digit more.
    numbers.extend([last * radix, last * radix + radix - 1, ABOVE * radix]);
    // What is left of these in 64 bits is small, or more than before the last digit.
    numbers.extend([2 * ABOVE, 3 * ABOVE - 1, ABOVE + ABOVE / 2, 256 * ABOVE + 1]);
    let powers = successors(Some(1), |power| Some(power * radix));
    let powers = powers.take_while(|&power| power < 64 * ABOVE);
    numbers.extend(powers.flat_map(|power| power - 1..=power + 1));
    numbers
}

/// The first one highest.
fn digits(number: u128, radix: u128) -> Vec<u32> {
    let parts = successors(Some(number), |rest| {
        Some(rest / radix).filter(|&rest| rest > 0)
    });
    let mut digits: Vec<u32> = parts.map(|part| (part % radix) as u32).collect();
    digits.reverse();
    digits
}

/// About as many digits as 2^64 has. None is above 35, whatever the radix.
fn draw(rng: &mut Rng, radix: u8) -> Vec<u32> {
    let length = digits(ABOVE, radix.into()).len() as u64 - 1 + rng.below(3);
    let highest = if rng.percent(50) { 36 } else { 4 };
    let below = u64::from(radix).min(highest);
    (0..length).map(|_| rng.below(below) as u32).collect()
}

/// The sum of what each digit is worth at its place, from the last one on.
fn by_places(digits: &[u32], radix: u128) -> u128 {
    let places = successors(Some(1), |place: &u128| place.checked_mul(radix));
    let worth = digits.iter().rev().zip(places);
    worth.map(|(&digit, place)| u128::from(digit) * place).sum()
}
