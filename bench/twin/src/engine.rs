//! The engine: a ledger over a journal. What it carries out is on the device first.

use crate::book::Book;
use crate::device::Device;
use crate::fault::{Fault, Refusal};
use crate::instruction::Instruction;
use crate::journal;
use crate::ledger::{Ledger, TradeState};

pub struct Engine<D, R, C> {
    device: D,
    ledger: Ledger<R, C>,
    state: State,
    pairs: u32,
    /// The number of entries that the opening found, and the last of them.
    found: u32,
    last_found: Option<Instruction>,
    /// The number of entries that stand.
    entries: u32,
}

#[derive(Clone, Copy)]
enum State {
    Open,
    /// Power failed while this instruction was written.
    Down(Instruction),
    /// The opening was refused.
    Refused(Fault),
}

/// What a close gives. It has to be presented to a later engine, or filed.
#[must_use = "a slip is owed: present it or file it"]
#[derive(PartialEq, Eq, Debug)]
pub struct Slip {
    content: Content,
}

#[derive(Clone, Copy, PartialEq, Eq, Debug)]
pub enum Content {
    /// The opening was refused.
    Unknown,
    /// The number of standing entries, and the instruction in hand.
    Known { entries: u32, in_hand: Option<Instruction> },
}

#[derive(Clone, Copy, PartialEq, Eq, Debug)]
#[repr(u8)]
pub enum Verdict {
    Same = 0,
    Stands = 1,
    Unknown = 53,
    Differs = 54,
}

impl Verdict {
    pub fn number(self) -> u8 {
        self as u8
    }
}

impl Slip {
    pub fn is_unknown(&self) -> bool {
        self.content == Content::Unknown
    }

    pub fn file(self) -> Content {
        self.content
    }
}

impl<D: Device, R: Book, C: Book> Engine<D, R, C> {
    pub fn open(device: D, register: R, cash: C) -> Engine<D, R, C> {
        let ledger = Ledger::new(register, cash);
        let mut engine =
            Engine { device, ledger, state: State::Open, pairs: 0, found: 0, last_found: None, entries: 0 };
        if let Err(fault) = engine.replay() {
            engine.ledger.clear();
            engine.state = State::Refused(fault);
            engine.last_found = None;
            engine.entries = 0;
        }
        engine.found = engine.entries;
        engine
    }

    /// Carries out the entries of the journal.
    fn replay(&mut self) -> Result<(), Fault> {
        self.pairs = journal::read_header(&mut self.device, self.ledger.register(), self.ledger.cash())?.pairs;
        while self.entries < self.pairs {
            let entry = self.entries;
            let Some(x) = journal::read_entry(&mut self.device, entry)? else { break };
            self.ledger.carry_out(&x).map_err(|fault| Fault {
                ruling: Some(fault.refusal),
                entry: Some(entry),
                trade: fault.trade,
                ..Refusal::RefusedEntry.into()
            })?;
            self.last_found = Some(x);
            self.entries += 1;
        }
        Ok(())
    }

    pub fn opening(&self) -> Result<(), Fault> {
        match self.state {
            State::Refused(fault) => Err(fault),
            _ => Ok(()),
        }
    }

    pub fn found(&self) -> u32 {
        self.found
    }

    pub fn instruct(&mut self, x: &Instruction) -> Result<(), Fault> {
        self.accepts(x).map_err(|fault| fault.of_trade(x.named_trade()))?;
        if let Err(fault) = journal::write_entry(&mut self.device, self.entries, x) {
            self.state = State::Down(*x);
            return Err(fault.at_entry(self.entries).of_trade(x.named_trade()));
        }
        self.entries += 1;
        self.ledger.carry_out(x)
    }

    /// The checks of an instruct before its first call of the device: 41, 42, the rules' own, 36.
    fn accepts(&self, x: &Instruction) -> Result<(), Fault> {
        self.answers()?;
        if let State::Down(_) = self.state {
            return Err(Refusal::Down.into());
        }
        self.ledger.check(x)?;
        if self.entries >= self.pairs {
            return Err(Refusal::JournalFull.into());
        }
        Ok(())
    }

    /// Free and blocked of an account in the register.
    pub fn securities(&self, account: u16, item: u16) -> Result<(u64, u64), Fault> {
        self.answers()?;
        amounts(self.ledger.register(), account, item)
    }

    /// Free and blocked of an account in the cash book.
    pub fn money(&self, account: u16, currency: u16) -> Result<(u64, u64), Fault> {
        self.answers()?;
        amounts(self.ledger.cash(), account, currency)
    }

    pub fn trade_state(&self, trade: u32) -> Result<TradeState, Fault> {
        self.answers()?;
        self.ledger.trade_state(trade)
    }

    pub fn entries(&self) -> Result<u32, Fault> {
        self.answers()?;
        Ok(self.entries)
    }

    /// The verdict on a slip, by what the opening found. An engine whose opening was refused gives the slip back.
    pub fn present(&self, slip: Slip) -> Result<Verdict, (Fault, Slip)> {
        if let Err(fault) = self.answers() {
            return Err((fault, slip));
        }
        Ok(match slip.file() {
            Content::Unknown => Verdict::Unknown,
            Content::Known { entries, .. } if entries == self.found => Verdict::Same,
            Content::Known { entries, in_hand: Some(x) } if entries + 1 == self.found && self.last_found == Some(x) => {
                Verdict::Stands
            }
            Content::Known { .. } => Verdict::Differs,
        })
    }

    pub fn close(self) -> (D, R, C, Slip) {
        let content = match self.state {
            State::Open => Content::Known { entries: self.entries, in_hand: None },
            State::Down(x) => Content::Known { entries: self.entries, in_hand: Some(x) },
            State::Refused(_) => Content::Unknown,
        };
        let (register, cash) = self.ledger.into_books();
        (self.device, register, cash, Slip { content })
    }

    fn answers(&self) -> Result<(), Fault> {
        match self.state {
            State::Refused(_) => Err(Refusal::NotOpened.into()),
            _ => Ok(()),
        }
    }
}

fn amounts(book: &impl Book, account: u16, item: u16) -> Result<(u64, u64), Fault> {
    Ok((book.free(account, item)?, book.blocked(account, item)?))
}

#[cfg(test)]
mod tests {
    use super::*;
    use crate::book::Balances;
    use crate::device::{Battery, PoweredDevice, Simulated};

    fn fresh(pairs: u32, calls: u32) -> Engine<Simulated, Balances, Balances> {
        let mut device = Simulated::new(vec![0; 7 * Simulated::ROW], 1000);
        journal::format(&mut device, pairs, &Balances::new(), &Balances::new()).unwrap();
        device.restart(calls, &[]);
        Engine::open(device, Balances::new(), Balances::new())
    }

    fn reopened<D: PoweredDevice>(
        engine: Engine<D, Balances, Balances>,
        calls: u32,
        remains: &[u8],
    ) -> (Engine<D, Balances, Balances>, Slip) {
        let (mut device, register, cash, slip) = engine.close();
        device.restart(calls, remains);
        (Engine::open(device, register, cash), slip)
    }

    fn number<T>(answer: Result<T, Fault>) -> u8 {
        answer.map_or_else(|fault| fault.number(), |_| 0)
    }

    #[test]
    fn a_full_journal_takes_no_more() {
        let mut engine = fresh(2, 100);
        let x = Instruction::issue(1, 0, 5);
        assert_eq!(engine.instruct(&x), Ok(()));
        assert_eq!(engine.instruct(&x), Ok(()));
        assert_eq!(number(engine.instruct(&Instruction::issue(64, 0, 5))), 21);
        assert_eq!(engine.instruct(&x), Err(Refusal::JournalFull.into()));
        let (engine, slip) = reopened(engine, 5, &[]);
        assert_eq!((number(engine.opening()), engine.found(), engine.entries()), (0, 2, Ok(2)));
        assert_eq!(engine.securities(1, 0), Ok((10, 0)));
        assert_eq!(engine.present(slip), Ok(Verdict::Same));
        assert_eq!(engine.close().0.left(), 0);
    }

    #[test]
    fn a_cut_instruction_is_in_hand() {
        let x = Instruction::issue(1, 0, 5);
        for (left, remain, verdict) in [
            (0, 1, Verdict::Same),
            (1, 1, Verdict::Same),
            (2, 1, Verdict::Same),
            (3, 0, Verdict::Same),
            (3, 1, Verdict::Stands),
            (3, 2, Verdict::Same),
            (3, 3, Verdict::Stands),
            (3, 4, Verdict::Same),
        ] {
            let mut engine = fresh(2, 2 + left);
            let fault = engine.instruct(&x).unwrap_err();
            assert_eq!((fault.number(), fault.entry, fault.trade), (13, Some(0), None));
            assert_eq!(fault.block, [Some(1), None, Some(2), None][left as usize]);
            assert_eq!(number(engine.instruct(&x)), 42);
            assert_eq!(engine.securities(1, 0), Ok((0, 0)));
            let (engine, slip) = reopened(engine, 100, &[remain]);
            assert_eq!(engine.present(slip), Ok(verdict));
            assert_eq!(engine.found(), u32::from(verdict == Verdict::Stands));
        }
    }

    #[test]
    fn a_refused_engine_answers_41() {
        let mut engine = fresh(2, 100);
        engine.instruct(&Instruction::issue(1, 0, 5)).unwrap();
        let (mut engine, slip) = reopened(engine, 2, &[]);
        let opening = engine.opening().unwrap_err();
        assert_eq!((opening.number(), opening.block, opening.entry), (13, Some(1), Some(0)));
        assert_eq!(engine.found(), 0);
        let fault = engine.instruct(&Instruction::of_trade(9, 1)).unwrap_err();
        assert_eq!(fault, Refusal::NotOpened.into());
        let fault = engine.instruct(&Instruction::of_trade(7, 500)).unwrap_err();
        assert_eq!((fault.number(), fault.trade), (41, Some(500)));
        assert_eq!(number(engine.securities(99, 99)), 41);
        assert_eq!(number(engine.money(0, 0)), 41);
        assert_eq!(number(engine.trade_state(0)), 41);
        assert_eq!(number(engine.entries()), 41);
        let (fault, slip) = engine.present(slip).unwrap_err();
        assert_eq!(fault.number(), 41);
        let (engine, unknown) = reopened(engine, 100, &[]);
        assert!(unknown.is_unknown());
        assert_eq!(engine.present(unknown), Ok(Verdict::Unknown));
        assert_eq!(engine.present(slip), Ok(Verdict::Same));
    }

    #[test]
    fn other_slips_differ() {
        let empty = fresh(2, 100);
        let mut one = fresh(2, 100);
        one.instruct(&Instruction::issue(1, 0, 5)).unwrap();
        let (_, _, _, ahead) = one.close();
        assert_eq!(empty.present(ahead), Ok(Verdict::Differs));
    }

    #[test]
    fn an_opening_names_what_it_refuses() {
        let header = |pairs| Header { kinds: [1, 1], pairs };
        use crate::journal::{mark, record, Header};
        let opening = |blocks: &[(u32, [u8; 256])]| {
            let mut device = Battery::new(vec![0; 7 * Battery::ROW], 100);
            for (block, bytes) in blocks {
                device.write(*block, bytes).unwrap();
            }
            Engine::open(device, Balances::new(), Balances::new()).opening().unwrap_err()
        };
        assert_eq!(opening(&[]), Refusal::NoHeader.into());
        let lots = Header { kinds: [1, 2], pairs: 4 };
        assert_eq!(opening(&[(0, lots.to_block())]), Refusal::OtherBooks.into());
        assert_eq!(opening(&[(0, header(4).to_block())]), Refusal::TooFewBlocks.into());
        assert_eq!(opening(&[(0, header(3).to_block()), (2, mark(0))]), Fault::from(Refusal::BadBytes).at_entry(0));
        let settle = Instruction::of_trade(6, 200);
        assert_eq!(
            opening(&[(0, header(3).to_block()), (1, record(0, &settle)), (2, mark(0))]),
            Fault {
                ruling: Some(Refusal::NoTrade),
                trade: Some(200),
                ..Fault::from(Refusal::RefusedEntry).at_entry(0)
            }
        );
    }
}
