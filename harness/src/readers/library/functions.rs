//! The C functions of the reader calls.

use super::raw::{RawAnswer, RawState};

/// Declares functions that share most of their parameters.
macro_rules! declare {
    ($shared:tt $($function:ident($($more:ident: $type:ty),*);)*) => {
        $(declare!(@one $shared $function($($more: $type),*));)*
    };
    (@one ($($name:ident: $of:ty,)*) $function:ident($($more:ident: $type:ty),*)) => {
        unsafe extern "C" {
            pub fn $function($($name: $of,)* $($more: $type),*) -> u32;
        }
    };
}

declare! {
    (
        s: *const u8,
        len: usize,
        reader: u8,
        state: &mut RawState,
        answer: &mut RawAnswer,
    )
    pawhetino_peek();
    pawhetino_next();
    pawhetino_next_all();
    pawhetino_read_if(set: &[u64; 4]);
    pawhetino_read_if_value_cased(value: u8);
    pawhetino_skip_zeros();
    pawhetino_take_n(n: usize);
    pawhetino_digit_run();
}

declare! {
    (
        s: *const u8,
        len: usize,
        reader: u8,
        cursor: &mut usize,
        answer: &mut RawAnswer,
    )
    pawhetino_plain_peek();
    pawhetino_plain_next();
}

unsafe extern "C" {
    pub fn pawhetino_current_count(
        s: *const u8,
        len: usize,
        reader: u8,
        state: *const RawState,
        count: &mut usize,
    ) -> u32;
    pub fn pawhetino_next_all_column(
        s: *const u8,
        len: usize,
        ends: *const usize,
        cells: usize,
        lo: u64,
        hi: u64,
        reader: u8,
        taken: &mut usize,
        passed: &mut usize,
        digits: &mut usize,
    ) -> u32;
    pub fn pawhetino_run_end(
        s: *const u8,
        len: usize,
        separator: u8,
        at: usize,
        end: &mut usize,
        eights: &mut usize,
        ones: &mut usize,
    );
    // Safe: a reference is a place for all that is written.
    pub safe fn pawhetino_fresh(lo: u64, hi: u64, edition: u64, state: &mut RawState) -> u32;
    pub safe fn pawhetino_is_digit(lo: u64, hi: u64, c: u8) -> bool;
    pub safe fn pawhetino_is_digit_separator(lo: u64, hi: u64, c: u8) -> bool;
}
