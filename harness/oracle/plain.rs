//! Root of the build without `format`: the plain check and the reader that
//! never passes. `skip` and `feature_format` switch themselves off here.

pub mod ascii;
pub mod digit;
pub mod error;
mod feature_format;
mod format_builder;
pub mod format_flags;
pub mod iterator;
pub mod noskip;
mod not_feature_format;
mod skip;

pub mod format {
    pub use crate::not_feature_format::*;
}

/// The plain check's answer as a number of the definition.
///
/// Never inlined, so that its caller pays for a call as it does with the other
/// library; two halves, so that both sides are handed the same arguments.
#[inline(never)]
pub fn format_error(lo: u64, hi: u64) -> u32 {
    number(not_feature_format::format_error_impl(
        u128::from(hi) << 64 | u128::from(lo),
    ))
}

const fn number(error: error::Error) -> u32 {
    error as u32
}
