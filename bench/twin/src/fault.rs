//! Refusals: what a call answers when it does not answer 0.

/// The numbers of RULES.md, "Numbers".
#[derive(Clone, Copy, PartialEq, Eq, Debug)]
#[repr(u8)]
pub enum Refusal {
    NoBlock = 11,
    NotABlock = 12,
    NoCalls = 13,
    Unreadable = 14,
    NoAccount = 21,
    NoItem = 22,
    NoQuantity = 23,
    OverCeiling = 24,
    TooLittleFree = 25,
    TooLittleBlocked = 26,
    NoTrade = 30,
    UnusedField = 31,
    NoKind = 32,
    OneAccount = 33,
    EnteredBefore = 34,
    WrongState = 35,
    JournalFull = 36,
    NotOpened = 41,
    Down = 42,
    NoHeader = 43,
    OtherBooks = 44,
    TooFewBlocks = 45,
    BadBytes = 46,
    RefusedEntry = 47,
    BadFormat = 61,
    BadLine = 71,
    TooLong = 73,
}

/// The part that refuses.
#[derive(Clone, Copy, PartialEq, Eq, Debug)]
pub enum Place {
    Device,
    Book,
    Trades,
    Journal,
    Engine,
    Script,
}

impl Refusal {
    pub fn number(self) -> u8 {
        self as u8
    }

    pub fn place(self) -> Place {
        match self.number() {
            11..=14 => Place::Device,
            21..=26 => Place::Book,
            30..=35 => Place::Trades,
            41 | 42 => Place::Engine,
            71 | 73 => Place::Script,
            _ => Place::Journal,
        }
    }
}

/// A refusal, and what it concerns.
#[derive(Clone, Copy, PartialEq, Eq, Debug)]
pub struct Fault {
    pub refusal: Refusal,
    pub block: Option<u32>,
    pub entry: Option<u32>,
    pub trade: Option<u32>,
    /// With 47, the rules' own refusal.
    pub ruling: Option<Refusal>,
}

impl Fault {
    pub fn number(&self) -> u8 {
        self.refusal.number()
    }

    pub fn at_block(self, block: u32) -> Fault {
        Fault { block: Some(block), ..self }
    }

    pub fn at_entry(self, entry: u32) -> Fault {
        Fault { entry: Some(entry), ..self }
    }

    pub fn of_trade(self, trade: Option<u32>) -> Fault {
        Fault { trade, ..self }
    }
}

impl From<Refusal> for Fault {
    fn from(refusal: Refusal) -> Fault {
        Fault { refusal, block: None, entry: None, trade: None, ruling: None }
    }
}

#[cfg(test)]
mod tests {
    use super::*;

    #[test]
    fn a_number_has_its_place() {
        assert_eq!(Refusal::NoCalls.place(), Place::Device);
        assert_eq!(Refusal::TooLittleFree.place(), Place::Book);
        assert_eq!(Refusal::WrongState.place(), Place::Trades);
        assert_eq!(Refusal::JournalFull.place(), Place::Journal);
        assert_eq!(Refusal::RefusedEntry.place(), Place::Journal);
        assert_eq!(Refusal::BadFormat.place(), Place::Journal);
        assert_eq!(Refusal::Down.place(), Place::Engine);
        assert_eq!(Refusal::BadLine.place(), Place::Script);
    }
}
