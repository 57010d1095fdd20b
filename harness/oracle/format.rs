//! Root of the build with `format`: the full check and the readers that pass
//! separators. `noskip` and `not_feature_format` switch themselves off here.

pub mod ascii;
pub mod digit;
pub mod error;
mod feature_format;
mod format_builder;
pub mod format_flags;
pub mod iterator;
mod noskip;
mod not_feature_format;
pub mod skip;

pub mod format {
    pub use crate::feature_format::*;
}

/// The full check's answer as a number of the definition.
///
/// Never inlined, so that its caller pays for a call as it does with the other
/// library; two halves, so that both sides are handed the same arguments.
#[inline(never)]
pub fn format_error(lo: u64, hi: u64) -> u32 {
    number(feature_format::format_error_impl(
        u128::from(hi) << 64 | u128::from(lo),
    ))
}

const fn number(error: error::Error) -> u32 {
    error as u32
}
