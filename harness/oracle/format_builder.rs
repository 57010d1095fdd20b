//! Stands in for the crate's own builder, which is not among its eight files.
//! They name it in two functions that the comparison never calls.

pub struct NumberFormatBuilder;

impl NumberFormatBuilder {
    pub const fn new() -> Self {
        Self
    }

    pub const fn rebuild(_format: u128) -> Self {
        Self
    }
}
