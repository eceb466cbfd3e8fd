//! Books: what each account has of each item, free and blocked.

use crate::fault::Refusal;

pub const ACCOUNTS: u16 = 64;

/// What an account has of an item.
#[derive(Clone, Copy, Default, Debug, PartialEq, Eq)]
pub struct Cell {
    pub free: u64,
    pub blocked: u64,
}

/// A book. A refused call changes nothing.
pub trait Book {
    fn kind(&self) -> u8;
    fn items(&self) -> u16;
    /// The most that one item may come to, free and blocked, over all accounts.
    fn ceiling(&self) -> u64;

    fn clear(&mut self);
    fn credit(&mut self, account: u16, item: u16, quantity: u64) -> Result<(), Refusal>;
    fn block(&mut self, account: u16, item: u16, quantity: u64) -> Result<(), Refusal>;
    /// From what `from` has blocked to what `to` has free.
    fn transfer(&mut self, from: u16, to: u16, item: u16, quantity: u64) -> Result<(), Refusal>;
    /// What an account has of an item. The book has to have both.
    fn cell(&self, account: u16, item: u16) -> Cell;

    fn release(&mut self, account: u16, item: u16, quantity: u64) -> Result<(), Refusal> {
        self.transfer(account, account, item, quantity)
    }

    fn free(&self, account: u16, item: u16) -> Result<u64, Refusal> {
        self.check_cell(account, item)?;
        Ok(self.cell(account, item).free)
    }

    fn blocked(&self, account: u16, item: u16) -> Result<u64, Refusal> {
        self.check_cell(account, item)?;
        Ok(self.cell(account, item).blocked)
    }

    /// Free and blocked together.
    fn holding(&self, account: u16, item: u16) -> Result<u64, Refusal> {
        Ok(self.free(account, item)? + self.blocked(account, item)?)
    }

    /// An item's amounts over all accounts.
    fn total(&self, item: u16) -> Result<u64, Refusal> {
        let mut sum = 0;
        for account in 0..ACCOUNTS {
            sum += self.holding(account, item)?;
        }
        Ok(sum)
    }

    /// What a credit would be answered.
    fn credit_ruling(&self, account: u16, item: u16, quantity: u64) -> Result<(), Refusal> {
        self.check(account, item, quantity)?;
        if quantity > self.ceiling() - self.total(item)? {
            return Err(Refusal::OverCeiling);
        }
        Ok(())
    }

    /// The checks of an account and an item: 21, 22.
    fn check_cell(&self, account: u16, item: u16) -> Result<(), Refusal> {
        check_account(account)?;
        if item >= self.items() {
            return Err(Refusal::NoItem);
        }
        Ok(())
    }

    /// The checks that all changes share: 21, 22, 23.
    fn check(&self, account: u16, item: u16, quantity: u64) -> Result<(), Refusal> {
        self.check_cell(account, item)?;
        if quantity == 0 {
            return Err(Refusal::NoQuantity);
        }
        Ok(())
    }
}

fn check_account(account: u16) -> Result<(), Refusal> {
    if account >= ACCOUNTS {
        return Err(Refusal::NoAccount);
    }
    Ok(())
}

/// Amounts of sixteen items.
#[derive(Clone, Debug, PartialEq, Eq)]
pub struct Balances {
    cells: Vec<Cell>,
}

impl Balances {
    const ITEMS: u16 = 16;

    pub fn new() -> Balances {
        Balances { cells: vec![Cell::default(); usize::from(ACCOUNTS) * usize::from(Self::ITEMS)] }
    }

    fn index(account: u16, item: u16) -> usize {
        usize::from(account) * usize::from(Self::ITEMS) + usize::from(item)
    }

    fn cell_mut(&mut self, account: u16, item: u16) -> &mut Cell {
        &mut self.cells[Self::index(account, item)]
    }
}

impl Default for Balances {
    fn default() -> Balances {
        Balances::new()
    }
}

impl Book for Balances {
    fn kind(&self) -> u8 {
        1
    }

    fn items(&self) -> u16 {
        Self::ITEMS
    }

    fn ceiling(&self) -> u64 {
        1_000_000_000_000
    }

    fn clear(&mut self) {
        self.cells.fill(Cell::default());
    }

    fn credit(&mut self, account: u16, item: u16, quantity: u64) -> Result<(), Refusal> {
        self.credit_ruling(account, item, quantity)?;
        self.cell_mut(account, item).free += quantity;
        Ok(())
    }

    fn block(&mut self, account: u16, item: u16, quantity: u64) -> Result<(), Refusal> {
        self.check(account, item, quantity)?;
        let cell = self.cell_mut(account, item);
        cell.free = cell.free.checked_sub(quantity).ok_or(Refusal::TooLittleFree)?;
        cell.blocked += quantity;
        Ok(())
    }

    fn transfer(&mut self, from: u16, to: u16, item: u16, quantity: u64) -> Result<(), Refusal> {
        check_account(to)?;
        self.check(from, item, quantity)?;
        let giver = self.cell_mut(from, item);
        giver.blocked = giver.blocked.checked_sub(quantity).ok_or(Refusal::TooLittleBlocked)?;
        self.cell_mut(to, item).free += quantity;
        Ok(())
    }

    fn cell(&self, account: u16, item: u16) -> Cell {
        self.cells[Self::index(account, item)]
    }
}

/// 256 numbered lots, each with one owner or none.
#[derive(Clone, Debug, PartialEq, Eq)]
pub struct Lots {
    lots: Vec<Option<Lot>>,
}

#[derive(Clone, Copy, Debug, PartialEq, Eq)]
struct Lot {
    owner: u16,
    blocked: bool,
}

impl Lots {
    const ITEMS: u16 = 256;

    pub fn new() -> Lots {
        Lots { lots: vec![None; usize::from(Self::ITEMS)] }
    }

    fn has(&self, account: u16, item: u16, blocked: bool) -> bool {
        self.lots[usize::from(item)] == Some(Lot { owner: account, blocked })
    }
}

impl Default for Lots {
    fn default() -> Lots {
        Lots::new()
    }
}

impl Book for Lots {
    fn kind(&self) -> u8 {
        2
    }

    fn items(&self) -> u16 {
        Self::ITEMS
    }

    fn ceiling(&self) -> u64 {
        1
    }

    fn clear(&mut self) {
        self.lots.fill(None);
    }

    fn credit(&mut self, account: u16, item: u16, quantity: u64) -> Result<(), Refusal> {
        self.credit_ruling(account, item, quantity)?;
        self.lots[usize::from(item)] = Some(Lot { owner: account, blocked: false });
        Ok(())
    }

    fn block(&mut self, account: u16, item: u16, quantity: u64) -> Result<(), Refusal> {
        self.check(account, item, quantity)?;
        if quantity > 1 || !self.has(account, item, false) {
            return Err(Refusal::TooLittleFree);
        }
        self.lots[usize::from(item)] = Some(Lot { owner: account, blocked: true });
        Ok(())
    }

    fn transfer(&mut self, from: u16, to: u16, item: u16, quantity: u64) -> Result<(), Refusal> {
        check_account(to)?;
        self.check(from, item, quantity)?;
        if quantity > 1 || !self.has(from, item, true) {
            return Err(Refusal::TooLittleBlocked);
        }
        self.lots[usize::from(item)] = Some(Lot { owner: to, blocked: false });
        Ok(())
    }

    fn cell(&self, account: u16, item: u16) -> Cell {
        Cell { free: u64::from(self.has(account, item, false)), blocked: u64::from(self.has(account, item, true)) }
    }
}

#[cfg(test)]
mod tests {
    use super::*;

    #[test]
    fn trials_of_balances() {
        let mut book = Balances::new();
        assert_eq!(book.block(0, 0, 1), Err(Refusal::TooLittleFree));
        assert_eq!(book.credit(0, 0, 1_000_000_000_000), Ok(()));
        assert_eq!(book.credit(1, 0, 1), Err(Refusal::OverCeiling));
        assert_eq!(book.credit(1, 0, u64::MAX), Err(Refusal::OverCeiling));
        assert_eq!(book.credit(1, 1, 1), Ok(()));
        assert_eq!(book.total(0), Ok(1_000_000_000_000));
    }

    #[test]
    fn trials_of_lots() {
        let mut book = Lots::new();
        assert_eq!(book.credit(3, 255, 2), Err(Refusal::OverCeiling));
        assert_eq!(book.credit(3, 255, 1), Ok(()));
        assert_eq!(book.credit(4, 255, 1), Err(Refusal::OverCeiling));
        assert_eq!(book.credit(4, 256, 1), Err(Refusal::NoItem));
        assert_eq!(book.block(3, 255, 1), Ok(()));
        assert_eq!(book.block(3, 255, 1), Err(Refusal::TooLittleFree));
        assert_eq!(book.blocked(3, 255), Ok(1));
        assert_eq!(book.transfer(3, 5, 255, 1), Ok(()));
        assert_eq!((book.free(5, 255), book.holding(3, 255)), (Ok(1), Ok(0)));
        assert_eq!(book.total(255), Ok(1));
    }

    #[test]
    fn checks_come_in_their_order() {
        let mut book = Balances::new();
        assert_eq!(book.credit(64, 16, 0), Err(Refusal::NoAccount));
        assert_eq!(book.credit(63, 16, 0), Err(Refusal::NoItem));
        assert_eq!(book.credit(63, 15, 0), Err(Refusal::NoQuantity));
        assert_eq!(book.transfer(0, 64, 16, 0), Err(Refusal::NoAccount));
        assert_eq!(book.transfer(64, 0, 16, 0), Err(Refusal::NoAccount));
        assert_eq!(book.transfer(0, 1, 16, 0), Err(Refusal::NoItem));
        assert_eq!(book.transfer(0, 1, 15, 0), Err(Refusal::NoQuantity));
        assert_eq!(book.block(63, 15, u64::MAX), Err(Refusal::TooLittleFree));
        assert_eq!(book.release(63, 15, 1), Err(Refusal::TooLittleBlocked));
        assert_eq!(book.total(16), Err(Refusal::NoItem));
        assert_eq!(book.free(64, 16), Err(Refusal::NoAccount));
        assert_eq!(book, Balances::new());
    }

    #[test]
    fn amounts_move() {
        let mut book = Balances::new();
        book.credit(1, 2, 10).unwrap();
        book.block(1, 2, 7).unwrap();
        book.release(1, 2, 2).unwrap();
        assert_eq!(book.transfer(1, 3, 2, 6), Err(Refusal::TooLittleBlocked));
        book.transfer(1, 3, 2, 4).unwrap();
        assert_eq!((book.free(1, 2), book.blocked(1, 2)), (Ok(5), Ok(1)));
        assert_eq!((book.free(3, 2), book.blocked(3, 2)), (Ok(4), Ok(0)));
        book.clear();
        assert_eq!(book, Balances::new());
    }
}
