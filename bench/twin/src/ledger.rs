//! The ledger: a register, a cash book and the trades, and the rules that change them.

use crate::book::{Book, ACCOUNTS};
use crate::fault::{Fault, Refusal};
use crate::instruction::{Instruction, EARMARK, ENTER, FREE, FUND, ISSUE, PAY_IN, SETTLE};

pub const TRADES: u32 = 128;

#[derive(Clone, Copy, PartialEq, Eq, Debug)]
pub enum TradeState {
    NeverEntered,
    Entered,
    Earmarked,
    Funded,
    Settled,
    Freed,
}

#[derive(Clone, Copy, PartialEq, Eq, Debug)]
struct Trade {
    state: TradeState,
    seller: u16,
    buyer: u16,
    item: u16,
    currency: u16,
    quantity: u64,
    amount: u64,
}

const BLANK: Trade =
    Trade { state: TradeState::NeverEntered, seller: 0, buyer: 0, item: 0, currency: 0, quantity: 0, amount: 0 };

#[derive(Clone, PartialEq, Eq, Debug)]
pub struct Ledger<R, C> {
    register: R,
    cash: C,
    trades: Vec<Trade>,
}

impl<R: Book, C: Book> Ledger<R, C> {
    /// A ledger of two books, which are cleared.
    pub fn new(register: R, cash: C) -> Ledger<R, C> {
        let mut ledger = Ledger { register, cash, trades: vec![BLANK; TRADES as usize] };
        ledger.clear();
        ledger
    }

    pub fn clear(&mut self) {
        self.register.clear();
        self.cash.clear();
        self.trades.fill(BLANK);
    }

    pub fn register(&self) -> &R {
        &self.register
    }

    pub fn cash(&self) -> &C {
        &self.cash
    }

    pub fn into_books(self) -> (R, C) {
        (self.register, self.cash)
    }

    /// A trade's state. The fault of this question names no trade.
    pub fn trade_state(&self, trade: u32) -> Result<TradeState, Fault> {
        Ok(self.trade(trade)?.state)
    }

    /// What the rules answer to an instruction.
    pub fn check(&self, x: &Instruction) -> Result<(), Fault> {
        self.ruling(x).map_err(|refusal| Fault::from(refusal).of_trade(x.named_trade()))
    }

    /// Carries an instruction out, if the rules accept it.
    pub fn carry_out(&mut self, x: &Instruction) -> Result<(), Fault> {
        self.check(x)?;
        self.change(x).expect("a book lets pass what the rules accept");
        Ok(())
    }

    fn trade(&self, trade: u32) -> Result<&Trade, Refusal> {
        if trade >= TRADES {
            return Err(Refusal::NoTrade);
        }
        Ok(&self.trades[trade as usize])
    }

    fn ruling(&self, x: &Instruction) -> Result<(), Refusal> {
        if !(ISSUE..=FREE).contains(&x.kind) {
            return Err(Refusal::NoKind);
        }
        if !x.unused_are_zero() {
            return Err(Refusal::UnusedField);
        }
        match x.kind {
            ISSUE => self.register.credit_ruling(x.account, x.item, x.quantity),
            PAY_IN => self.cash.credit_ruling(x.account, x.currency, x.amount),
            ENTER => self.enter_ruling(x),
            kind => self.step_ruling(kind, self.trade(x.trade)?),
        }
    }

    fn enter_ruling(&self, x: &Instruction) -> Result<(), Refusal> {
        if self.trade(x.trade)?.state != TradeState::NeverEntered {
            return Err(Refusal::EnteredBefore);
        }
        if x.account == x.counterparty {
            return Err(Refusal::OneAccount);
        }
        if x.account >= ACCOUNTS || x.counterparty >= ACCOUNTS {
            return Err(Refusal::NoAccount);
        }
        if x.item >= self.register.items() || x.currency >= self.cash.items() {
            return Err(Refusal::NoItem);
        }
        if x.quantity == 0 || x.amount == 0 {
            return Err(Refusal::NoQuantity);
        }
        Ok(())
    }

    fn step_ruling(&self, kind: u8, trade: &Trade) -> Result<(), Refusal> {
        use TradeState::*;
        let starts = match kind {
            EARMARK => trade.state == Entered,
            FUND => trade.state == Earmarked,
            SETTLE => trade.state == Funded,
            _ => matches!(trade.state, Entered | Earmarked | Funded),
        };
        if !starts {
            return Err(Refusal::WrongState);
        }
        let enough = match kind {
            EARMARK => self.register.free(trade.seller, trade.item)? >= trade.quantity,
            FUND => self.cash.free(trade.buyer, trade.currency)? >= trade.amount,
            _ => true,
        };
        if !enough {
            return Err(Refusal::TooLittleFree);
        }
        Ok(())
    }

    /// Makes the change of an instruction that the rules accept.
    fn change(&mut self, x: &Instruction) -> Result<(), Refusal> {
        match x.kind {
            ISSUE => return self.register.credit(x.account, x.item, x.quantity),
            PAY_IN => return self.cash.credit(x.account, x.currency, x.amount),
            _ => {}
        }
        let trade = &mut self.trades[x.trade as usize];
        match x.kind {
            ENTER => {
                *trade = Trade {
                    state: TradeState::Entered,
                    seller: x.account,
                    buyer: x.counterparty,
                    item: x.item,
                    currency: x.currency,
                    quantity: x.quantity,
                    amount: x.amount,
                }
            }
            EARMARK => {
                self.register.block(trade.seller, trade.item, trade.quantity)?;
                trade.state = TradeState::Earmarked;
            }
            FUND => {
                self.cash.block(trade.buyer, trade.currency, trade.amount)?;
                trade.state = TradeState::Funded;
            }
            SETTLE => {
                self.register.transfer(trade.seller, trade.buyer, trade.item, trade.quantity)?;
                self.cash.transfer(trade.buyer, trade.seller, trade.currency, trade.amount)?;
                trade.state = TradeState::Settled;
            }
            _ => {
                if matches!(trade.state, TradeState::Earmarked | TradeState::Funded) {
                    self.register.release(trade.seller, trade.item, trade.quantity)?;
                }
                if trade.state == TradeState::Funded {
                    self.cash.release(trade.buyer, trade.currency, trade.amount)?;
                }
                trade.state = TradeState::Freed;
            }
        }
        Ok(())
    }
}

#[cfg(test)]
mod tests {
    use super::*;
    use crate::book::{Balances, Lots};

    fn enter(seller: u16, buyer: u16, trade: u32, quantity: u64, amount: u64) -> Instruction {
        Instruction {
            kind: ENTER,
            account: seller,
            counterparty: buyer,
            trade,
            quantity,
            amount,
            ..Instruction::default()
        }
    }

    fn number(answer: Result<(), Fault>) -> u8 {
        answer.map_or_else(|fault| fault.number(), |()| 0)
    }

    fn stocked() -> Ledger<Balances, Balances> {
        let mut ledger = Ledger::new(Balances::new(), Balances::new());
        ledger.carry_out(&Instruction::issue(1, 0, 100)).unwrap();
        ledger.carry_out(&Instruction::pay_in(2, 0, 5000)).unwrap();
        ledger.carry_out(&enter(1, 2, 7, 100, 5000)).unwrap();
        ledger
    }

    #[test]
    fn a_trade_settles_once() {
        let mut ledger = stocked();
        for (kind, answer) in [(5, 35), (6, 35), (4, 0), (4, 35), (6, 35), (5, 0), (6, 0), (6, 35), (7, 35)] {
            assert_eq!(number(ledger.carry_out(&Instruction::of_trade(kind, 7))), answer, "kind {kind}");
        }
        assert_eq!(ledger.register().free(2, 0), Ok(100));
        assert_eq!(ledger.cash().free(1, 0), Ok(5000));
        assert_eq!(ledger.cash().holding(2, 0), Ok(0));
        assert_eq!(number(ledger.carry_out(&enter(1, 2, 7, 1, 1))), 34);
    }

    #[test]
    fn a_free_releases_what_is_blocked() {
        for steps in 0..3 {
            let mut ledger = stocked();
            for kind in [4, 5].into_iter().take(steps) {
                ledger.carry_out(&Instruction::of_trade(kind, 7)).unwrap();
            }
            ledger.carry_out(&Instruction::of_trade(FREE, 7)).unwrap();
            assert_eq!(ledger.trade_state(7), Ok(TradeState::Freed));
            assert_eq!(ledger.register().free(1, 0), Ok(100));
            assert_eq!(ledger.cash().free(2, 0), Ok(5000));
        }
    }

    #[test]
    fn checks_come_in_their_order() {
        let ledger = stocked();
        let mut x = enter(70, 70, 8, 0, 0);
        assert_eq!(number(ledger.check(&x)), 33);
        x.trade = 7;
        assert_eq!(number(ledger.check(&x)), 34);
        x.trade = 128;
        assert_eq!(number(ledger.check(&x)), 30);
        x.kind = EARMARK;
        assert_eq!(number(ledger.check(&x)), 31);
        x.kind = 8;
        assert_eq!(number(ledger.check(&x)), 32);
        x = enter(70, 71, 8, 0, 0);
        x.currency = 16;
        assert_eq!(number(ledger.check(&x)), 21);
        x.account = 1;
        x.counterparty = 2;
        assert_eq!(number(ledger.check(&x)), 22);
        x.currency = 15;
        assert_eq!(number(ledger.check(&x)), 23);
        assert_eq!(number(ledger.check(&Instruction::of_trade(SETTLE, 8))), 35);
    }

    #[test]
    fn a_fault_names_its_trade() {
        let ledger = stocked();
        let trade = |x: Instruction| ledger.check(&x).unwrap_err().trade;
        assert_eq!(trade(Instruction::of_trade(SETTLE, 7)), Some(7));
        assert_eq!(trade(Instruction::of_trade(SETTLE, 1000)), Some(1000));
        assert_eq!(trade(Instruction::of_trade(ISSUE, 1000)), None);
        assert_eq!(trade(Instruction::of_trade(0, 1000)), None);
        assert_eq!(ledger.trade_state(128), Err(Refusal::NoTrade.into()));
    }

    #[test]
    fn lots_settle_against_cash() {
        let mut ledger = Ledger::new(Lots::new(), Balances::new());
        ledger.carry_out(&Instruction::issue(1, 0, 1)).unwrap();
        ledger.carry_out(&Instruction::pay_in(2, 0, 9)).unwrap();
        ledger.carry_out(&enter(1, 2, 0, 2, 9)).unwrap();
        assert_eq!(number(ledger.carry_out(&Instruction::of_trade(EARMARK, 0))), 25);
        ledger.carry_out(&enter(1, 2, 1, 1, 9)).unwrap();
        for kind in [EARMARK, FUND, SETTLE] {
            ledger.carry_out(&Instruction::of_trade(kind, 1)).unwrap();
        }
        assert_eq!(ledger.register().free(2, 0), Ok(1));
    }
}
