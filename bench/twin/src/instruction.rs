//! Instructions and their 32 bytes.

use crate::fault::Refusal;

pub const LENGTH: usize = 32;

pub const ISSUE: u8 = 1;
pub const PAY_IN: u8 = 2;
pub const ENTER: u8 = 3;
pub const EARMARK: u8 = 4;
pub const FUND: u8 = 5;
pub const SETTLE: u8 = 6;
pub const FREE: u8 = 7;

/// An instruction of any kind and with any fields; the rules judge them. The fields lie in memory in this order, as the static
/// library expects.
#[repr(C)]
#[derive(Clone, Copy, Default, PartialEq, Eq, Debug)]
pub struct Instruction {
    pub kind: u8,
    /// In an Enter, the seller.
    pub account: u16,
    /// In an Enter, the buyer.
    pub counterparty: u16,
    pub item: u16,
    pub currency: u16,
    pub trade: u32,
    pub quantity: u64,
    pub amount: u64,
}

impl Instruction {
    pub fn issue(account: u16, item: u16, quantity: u64) -> Instruction {
        Instruction { kind: ISSUE, account, item, quantity, ..Instruction::default() }
    }

    pub fn pay_in(account: u16, currency: u16, amount: u64) -> Instruction {
        Instruction { kind: PAY_IN, account, currency, amount, ..Instruction::default() }
    }

    /// An instruction of one of the kinds that use the trade and no other field.
    pub fn of_trade(kind: u8, trade: u32) -> Instruction {
        Instruction { kind, trade, ..Instruction::default() }
    }

    /// The trade that a fault of this instruction names.
    pub fn named_trade(&self) -> Option<u32> {
        (ENTER..=FREE).contains(&self.kind).then_some(self.trade)
    }

    /// Whether every field that the kind does not use is 0. The kind is one of 1 to 7.
    pub fn unused_are_zero(&self) -> bool {
        let used = match self.kind {
            ISSUE => Instruction::issue(self.account, self.item, self.quantity),
            PAY_IN => Instruction::pay_in(self.account, self.currency, self.amount),
            ENTER => *self,
            kind => Instruction::of_trade(kind, self.trade),
        };
        used == *self
    }

    pub fn to_bytes(&self) -> [u8; LENGTH] {
        let mut bytes = [0; LENGTH];
        bytes[0] = self.kind;
        bytes[2..4].copy_from_slice(&self.account.to_le_bytes());
        bytes[4..6].copy_from_slice(&self.counterparty.to_le_bytes());
        bytes[6..8].copy_from_slice(&self.item.to_le_bytes());
        bytes[8..10].copy_from_slice(&self.currency.to_le_bytes());
        bytes[12..16].copy_from_slice(&self.trade.to_le_bytes());
        bytes[16..24].copy_from_slice(&self.quantity.to_le_bytes());
        bytes[24..32].copy_from_slice(&self.amount.to_le_bytes());
        bytes
    }

    pub fn from_bytes(bytes: &[u8]) -> Result<Instruction, Refusal> {
        let bytes: &[u8; LENGTH] = bytes.try_into().map_err(|_| Refusal::BadBytes)?;
        if bytes[1] != 0 || bytes[10] != 0 || bytes[11] != 0 {
            return Err(Refusal::BadBytes);
        }
        let two = |at: usize| u16::from_le_bytes([bytes[at], bytes[at + 1]]);
        let eight = |at: usize| u64::from_le_bytes(bytes[at..at + 8].try_into().expect("eight bytes"));
        Ok(Instruction {
            kind: bytes[0],
            account: two(2),
            counterparty: two(4),
            item: two(6),
            currency: two(8),
            trade: u32::from_le_bytes(bytes[12..16].try_into().expect("four bytes")),
            quantity: eight(16),
            amount: eight(24),
        })
    }
}

#[cfg(test)]
mod tests {
    use super::*;

    #[test]
    fn earmark_of_trade_7() {
        let mut expected = [0; 32];
        expected[0] = 4;
        expected[12] = 7;
        let earmark = Instruction::of_trade(EARMARK, 7);
        assert_eq!(earmark.to_bytes(), expected);
        assert_eq!(Instruction::from_bytes(&expected), Ok(earmark));
    }

    #[test]
    fn each_field_has_its_bytes() {
        let enter = Instruction {
            kind: 3,
            account: 0x0102,
            counterparty: 0x0304,
            item: 0x0506,
            currency: 0x0708,
            trade: 0x090A_0B0C,
            quantity: 0x1112_1314_1516_1718,
            amount: 0x2122_2324_2526_2728,
        };
        let bytes = [
            3, 0, 2, 1, 4, 3, 6, 5, 8, 7, 0, 0, 0x0C, 0x0B, 0x0A, 9, 0x18, 0x17, 0x16, 0x15, 0x14, 0x13, 0x12, 0x11,
            0x28, 0x27, 0x26, 0x25, 0x24, 0x23, 0x22, 0x21,
        ];
        assert_eq!(enter.to_bytes(), bytes);
        assert_eq!(Instruction::from_bytes(&bytes), Ok(enter));
    }

    #[test]
    fn other_strings_are_no_instruction() {
        for at in 0..32 {
            let mut bytes = [0; 32];
            bytes[at] = 255;
            let reserved = [1, 10, 11].contains(&at);
            assert_eq!(Instruction::from_bytes(&bytes).is_err(), reserved);
        }
        assert_eq!(Instruction::from_bytes(&[0; 31]), Err(Refusal::BadBytes));
        assert_eq!(Instruction::from_bytes(&[0; 33]), Err(Refusal::BadBytes));
        assert_eq!(Instruction::from_bytes(&[]), Err(Refusal::BadBytes));
    }
}
