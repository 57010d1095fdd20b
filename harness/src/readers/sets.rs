//! The sets of separator flags, as `reader_flags` takes them: internal,
//! leading, trailing, consecutive.

pub const NONE: u32 = 0;
pub const I: u32 = 1;
pub const L: u32 = 2;
pub const T: u32 = 4;
pub const C: u32 = 8;
pub const IL: u32 = I | L;
pub const IT: u32 = I | T;
pub const LT: u32 = L | T;
pub const ILT: u32 = I | L | T;
pub const IC: u32 = I | C;
pub const LC: u32 = L | C;
pub const TC: u32 = T | C;
pub const ILC: u32 = IL | C;
pub const ITC: u32 = IT | C;
pub const LTC: u32 = LT | C;
pub const ILTC: u32 = ILT | C;

/// All that the crate has a rule for. It has none for the consecutive flag
/// alone, and panics there.
pub const SETS: [u32; 15] = [
    NONE, I, L, IL, T, IT, LT, ILT, IC, LC, ILC, TC, ITC, LTC, ILTC,
];

/// A set by its letters.
pub fn name(set: u32) -> String {
    let letters = "ILTC".chars().enumerate();
    letters
        .filter(|&(place, _)| set >> place & 1 == 1)
        .map(|(_, letter)| letter)
        .collect()
}
