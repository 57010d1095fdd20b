//! Single takes and single peeks.

use lexical_util_format::iterator::{Bytes, DigitsIter};

use super::each_byte::{ByteCall, EachByte};
use super::next_all::ORDINARY_SETS;
use super::singly::Singly;
use super::table::{Rows, Table, Unit};
use crate::readers::call::{Call, Case};
use crate::readers::port;
use crate::readers::sets::ILT;

pub struct Next;

impl ByteCall for Next {
    const CALL: Call = Call::Next;
    const STEPS: bool = false;

    #[inline(always)]
    fn rust<const FORMAT: u128>(bytes: &mut Bytes<FORMAT>) -> Option<u8> {
        bytes.integer_iter().next().copied()
    }

    #[inline(always)]
    fn port(case: &mut Case) -> Option<u8> {
        port::next(case)
    }
}

pub struct Peek;

impl ByteCall for Peek {
    const CALL: Call = Call::Peek;
    const STEPS: bool = true;

    #[inline(always)]
    fn rust<const FORMAT: u128>(bytes: &mut Bytes<FORMAT>) -> Option<u8> {
        bytes.integer_iter().peek().copied()
    }

    #[inline(always)]
    fn port(case: &mut Case) -> Option<u8> {
        port::peek(case)
    }
}

pub fn takes() -> Table<Singly<EachByte<Next>>> {
    Table {
        title: "Take, a call at each byte of a cell and one behind the last",
        short: "take",
        unit: Unit::Call,
        rows: rows(|| Next),
    }
}

pub fn peeks() -> Table<Singly<EachByte<Peek>>> {
    Table {
        title: "Peek, a call at each byte of a cell and one behind the last",
        short: "peek",
        unit: Unit::Call,
        rows: rows(|| Peek),
    }
}

fn rows<C>(call: impl Fn() -> C) -> Vec<Rows<Singly<EachByte<C>>>> {
    let cells: [(_, _, &[u32]); 2] = [("`1_204`", "1_204", &[ILT]), ("`123456`", "123456", &[])];
    let rows = cells.map(|(name, kind, charted)| Rows {
        name,
        kinds: vec![kind.into()],
        cells: 7000,
        passes: 30,
        sets: ORDINARY_SETS,
        charted,
        sides: Singly(EachByte(call())),
    });
    rows.into()
}
