//! The rows that cross to crates/bench_library.

use std::fmt;

use twin::fault::{Fault, Refusal};
use twin::instruction::Instruction;

pub const SIMULATED: u8 = 0;
pub const BATTERY: u8 = 1;

/// No block, no entry or no trade.
pub const NONE: u64 = u64::MAX;

/// The answer to a call that does not fit.
pub const MISFIT: u8 = 255;

#[repr(C)]
#[derive(Clone, Copy, PartialEq, Eq, Debug)]
pub struct Setup {
    /// [`SIMULATED`] or [`BATTERY`].
    pub device: u8,
    /// The kinds of the books.
    pub register: u8,
    pub cash: u8,
    pub calls: u32,
}

/// What a call does.
pub mod action {
    pub const OPEN: u8 = 0;
    pub const CLOSE: u8 = 1;
    pub const PRESENT: u8 = 2;
    pub const FILE: u8 = 3;
    pub const INSTRUCT: u8 = 10;
    pub const INSTRUCT_BYTES: u8 = 11;
    pub const SECURITIES: u8 = 12;
    pub const MONEY: u8 = 13;
    pub const TRADE_STATE: u8 = 14;
    pub const ENTRIES: u8 = 15;
    pub const OPENING: u8 = 16;
    pub const FOUND: u8 = 17;
    pub const FORMAT: u8 = 20;
    pub const RESTART: u8 = 21;
    pub const READ: u8 = 22;
    pub const WRITE: u8 = 23;
    pub const SYNC: u8 = 24;
    pub const SIZE: u8 = 25;
    /// The first of ten calls to the register. The ten to the cash book follow.
    pub const BOOK: u8 = 30;
}

#[repr(C)]
#[derive(Clone, Copy, Default, PartialEq, Eq, Debug)]
pub struct Call {
    pub action: u8,
    pub fields: Instruction,
    pub number: u32,
    pub from: u32,
    pub length: u32,
}

impl Call {
    /// A call with 0 in its fields.
    pub fn of(action: u8) -> Call {
        Call { action, ..Call::default() }
    }
}

#[repr(C)]
#[derive(Clone, Copy, PartialEq, Eq, Debug)]
pub struct Answer {
    pub number: u8,
    pub place: u8,
    pub rule: u8,
    pub in_hand: u8,
    pub block: u64,
    pub entry: u64,
    pub trade: u64,
    pub first: u64,
    pub second: u64,
    pub hand: Instruction,
}

impl Answer {
    pub fn of_number(number: u8) -> Answer {
        Answer {
            number,
            place: 0,
            rule: 0,
            in_hand: 0,
            block: NONE,
            entry: NONE,
            trade: NONE,
            first: 0,
            second: 0,
            hand: Instruction::default(),
        }
    }

    pub fn telling(first: u64, second: u64) -> Answer {
        Answer { first, second, ..Answer::of_number(0) }
    }

    pub fn of_fault(fault: Fault) -> Answer {
        let or_none = |named: Option<u32>| named.map_or(NONE, u64::from);
        Answer {
            place: fault.refusal.place() as u8,
            rule: fault.ruling.map_or(0, Refusal::number),
            block: or_none(fault.block),
            entry: or_none(fault.entry),
            trade: or_none(fault.trade),
            ..Answer::of_number(fault.number())
        }
    }
}

impl fmt::Display for Answer {
    fn fmt(&self, f: &mut fmt::Formatter<'_>) -> fmt::Result {
        write!(f, "{} of place {}", self.number, self.place)?;
        for (name, named) in [("block", self.block), ("entry", self.entry), ("trade", self.trade)] {
            if named != NONE {
                write!(f, " {name} {named}")?;
            }
        }
        write!(f, " rule {} values {} {}", self.rule, self.first, self.second)?;
        if self.in_hand != 0 {
            write!(f, " {:?}", self.hand)?;
        }
        Ok(())
    }
}

#[repr(C)]
#[derive(Clone, Copy, Debug)]
pub struct Timing {
    pub what: u8,
    pub rounds: u32,
    pub pairs: u32,
    pub entries: u32,
    pub refusals: u32,
    pub blocks: u32,
    pub accepted: Instruction,
    pub refused: Instruction,
}
