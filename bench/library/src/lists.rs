//! Random images and lists of calls, from seeds.

use std::collections::BTreeMap;

use twin::device::{Battery, Bytes, Simulated, BLOCK};
use twin::instruction::{Instruction, EARMARK, ENTER, FREE, ISSUE, PAY_IN};
use twin::journal::{self, Header};
use twin::rng::Rng;

use crate::rows::{action, Call, Setup, BATTERY, MISFIT, SIMULATED};
use crate::twins::{self, Gives};

/// The data of a list, in slots of a block each.
pub const SLOTS: u64 = 16;

/// The first slot that reads fill.
const BUFFERS: u64 = 8;

/// Numbers at which something changes.
const BOUNDARIES: [u64; 20] = [
    0,
    1,
    2,
    15,
    16,
    17,
    63,
    64,
    127,
    128,
    255,
    256,
    257,
    65_535,
    4_294_967_295,
    999_999_999_999,
    1_000_000_000_000,
    1_000_000_000_001,
    9_223_372_036_854_775_808,
    18_446_744_073_709_551_615,
];

pub struct List {
    pub setup: Setup,
    pub data: Vec<u8>,
    pub calls: Vec<Call>,
}

/// A list in the making, with the twin that has been given its calls so far.
struct Draft {
    twin: Box<dyn Gives>,
    data: Vec<u8>,
    calls: Vec<Call>,
    blocks: u32,
}

/// Makes the lists of a seed, and the images on which they are carried out. It asks the twin what was answered so far, to decide
/// what to ask next; of the books it has only a rough idea.
pub struct Maker {
    rng: Rng,
    device: u8,
    kinds: [u8; 2],
    pairs: u32,
    entries: u32,
    /// Whether an engine has the device, and whether it takes no instructions.
    running: bool,
    stuck: bool,
    /// The next kind of instruction of each trade that was entered.
    steps: BTreeMap<u32, u8>,
    /// Who was last credited with each item of the register and of the cash book.
    owners: [BTreeMap<u16, u16>; 2],
}

impl Maker {
    pub fn new(seed: u64) -> Maker {
        let mut rng = Rng::new(seed);
        let device = rng.pick(&[SIMULATED, BATTERY]);
        let kinds = [rng.pick(&[1, 2]), rng.pick(&[1, 2])];
        let (owners, steps) = Default::default();
        Maker { rng, device, kinds, pairs: 1, entries: 0, running: false, stuck: false, steps, owners }
    }

    pub fn lists(&mut self) -> u64 {
        self.rng.between(1, 3)
    }

    /// Whether the next list continues with the proved engine's image, and not with the twin's.
    pub fn from_original(&mut self) -> bool {
        self.rng.chance(50)
    }

    fn row(&self) -> usize {
        match self.device {
            SIMULATED => Simulated::ROW,
            _ => Battery::ROW,
        }
    }

    /// The image of a seed's first list: zeros, random bytes, or a journal.
    pub fn image(&mut self) -> Vec<u8> {
        let rows = match self.rng.below(2000) {
            0..=1 => self.rng.between(65_534, 65_538),
            2..=199 => self.rng.between(0, 3),
            200..=299 => self.rng.between(41, 130),
            _ => self.rng.between(3, 40),
        };
        let mut image = vec![0; rows as usize * self.row()];
        if self.rng.chance(20) {
            let more = self.rng.below(self.row() as u64) as usize;
            image.resize(image.len() + more, 0);
        }
        self.pairs = (rows.saturating_sub(1) / 2).clamp(1, 32_767) as u32;
        match self.rng.below(10) {
            0 => self.fill(&mut image),
            1..=4 => self.put_journal(&mut image),
            _ => {}
        }
        image
    }

    fn fill(&mut self, image: &mut [u8]) {
        let narrow = self.rng.chance(50);
        for byte in image {
            *byte = if narrow { self.rng.pick(&[0, 1, 2, 255]) } else { self.rng.next() as u8 };
        }
    }

    /// A header, and entries that may be refused.
    fn put_journal(&mut self, image: &mut [u8]) {
        let header = self.header();
        self.put_block(image, 0, &header.to_block());
        self.entries = self.rng.below(u64::from(header.pairs.min(20)) + 1) as u32;
        for entry in 0..self.entries {
            let x = if self.rng.chance(3) { self.wild() } else { self.live() };
            self.put_block(image, journal::record_block(entry), &journal::record(entry, &x));
            self.put_block(image, journal::mark_block(entry), &journal::mark(entry));
        }
    }

    fn header(&mut self) -> Header {
        let mut header = Header { kinds: self.kinds, pairs: self.pairs };
        if self.rng.chance(10) {
            header.kinds = [self.rng.pick(&[0, 1, 2, 3]), self.rng.pick(&[0, 1, 2, 255])];
        }
        if self.rng.chance(20) {
            header.pairs = self.number_of_pairs();
        }
        header
    }

    fn number_of_pairs(&mut self) -> u32 {
        let near = self.rng.between(1, u64::from(self.pairs)) as u32;
        let choices = [near, near, self.pairs, self.pairs + 1, self.pairs - 1, 0, 32_767, 32_768, 65_536, u32::MAX];
        self.rng.pick(&choices)
    }

    /// Makes a block hold bytes, firmly or as its newer bytes, if the image has the block.
    fn put_block(&mut self, image: &mut [u8], block: u32, bytes: &Bytes) {
        let at = block as usize * self.row();
        let Some(row) = image.get_mut(at..at + self.row()) else { return };
        row[0] = 0;
        row[1..=BLOCK].copy_from_slice(bytes);
        if self.device == SIMULATED && self.rng.chance(20) {
            row[257] = self.rng.pick(&[1, 1, 2, 255]);
            row[258..].copy_from_slice(bytes);
            let other = self.rng.next() as u8;
            row[1..257].fill(other);
            row[0] = self.rng.pick(&[0, 1]);
        }
    }

    /// Changes an image in a few places.
    pub fn damage(&mut self, image: &mut Vec<u8>) {
        for _ in 0..self.rng.pick(&[0, 1, 1, 2, 3]) {
            match self.rng.below(12) {
                0 => self.change_length(image),
                1 => self.copy_row(image),
                2 => self.put_journal(image),
                3 => {
                    let header = self.header();
                    self.put_block(image, 0, &header.to_block());
                }
                4..=5 => self.put_entry(image),
                _ => self.change_byte(image),
            }
        }
    }

    fn change_length(&mut self, image: &mut Vec<u8>) {
        let row = self.row();
        let rows = image.len() / row;
        match self.rng.below(4) {
            0 => image.truncate(self.rng.below(rows as u64 + 1) as usize * row),
            1 => image.truncate(image.len().saturating_sub(1)),
            2 => image.resize(image.len() + 2 * row, 0),
            _ => image.resize(image.len() + self.rng.below(row as u64) as usize, 7),
        }
    }

    fn copy_row(&mut self, image: &mut [u8]) {
        let row = self.row();
        let rows = (image.len() / row) as u64;
        if rows > 0 {
            let from = self.rng.below(rows) as usize * row;
            let to = self.rng.below(rows) as usize * row;
            image.copy_within(from..from + row, to);
        }
    }

    /// A mark, a record or both, of an entry near the last.
    fn put_entry(&mut self, image: &mut [u8]) {
        let entry = self.rng.between(u64::from(self.entries.saturating_sub(2)), u64::from(self.entries) + 1) as u32;
        let named = if self.rng.chance(80) { entry } else { self.rng.below(4) as u32 };
        let x = if self.rng.chance(60) { self.wild() } else { self.live() };
        let what = self.rng.below(3);
        if what != 0 {
            self.put_block(image, journal::record_block(entry), &journal::record(named, &x));
        }
        if what != 1 {
            self.put_block(image, journal::mark_block(entry), &journal::mark(named));
        }
    }

    /// A byte of some row: its flags, or a byte of the block that it holds.
    fn change_byte(&mut self, image: &mut [u8]) {
        let row = self.row();
        let entry = self.rng.below(u64::from(self.entries) + 2) as u32;
        let any = self.rng.below((image.len() / row) as u64 + 1) as u32;
        let choices = [0, journal::record_block(entry), journal::mark_block(entry), any];
        let block = self.rng.pick(&choices) as usize;
        let half = if self.device == SIMULATED && self.rng.chance(40) { 257 } else { 0 };
        let within = match self.rng.below(6) {
            0 => 0,
            1 => 1 + self.rng.below(8),
            2 => 9 + self.rng.below(32),
            3 => 256,
            _ => self.rng.below(257),
        } as usize;
        if let Some(byte) = image.get_mut(block * row + half + within) {
            let choices = [0, 1, 2, 3, 7, 8, 255, *byte ^ 1, *byte ^ 128, byte.wrapping_add(1)];
            *byte = self.rng.pick(&choices);
        }
    }

    /// A list of calls, over an image.
    pub fn list(&mut self, image: &[u8]) -> List {
        let [register, cash] = self.kinds;
        let setup = Setup { device: self.device, register, cash, calls: self.calls_left() };
        let data = self.data();
        let blocks = (image.len() / self.row()) as u32;
        let mut draft = Draft { twin: twins::start(&setup, image), data: data.clone(), calls: Vec::new(), blocks };
        (self.running, self.stuck) = (false, false);
        if blocks > 60_000 || self.rng.chance(5) {
            self.add(&mut draft, Call::of(action::SIZE));
        }
        if self.rng.chance(30) || image.iter().take(self.row()).all(|byte| *byte == 0) {
            self.add_format(&mut draft);
        }
        if self.rng.chance(80) {
            self.add(&mut draft, Call::of(action::OPEN));
        }
        for _ in 0..self.rng.between(3, 70) {
            self.add_any(&mut draft);
        }
        List { setup, data, calls: draft.calls }
    }

    /// Adds a call, and takes note of the twin's answer.
    fn add(&mut self, draft: &mut Draft, call: Call) {
        draft.calls.push(call);
        let answer = draft.twin.give(&call, &mut draft.data);
        match (call.action, answer.number) {
            (_, MISFIT) => {}
            (action::OPEN, number) => {
                self.running = true;
                self.stuck = number != 0;
                self.entries = draft.twin.give(&Call::of(action::FOUND), &mut []).first as u32;
            }
            (action::CLOSE, _) => self.running = false,
            (action::FORMAT, 0) => self.entries = 0,
            (action::INSTRUCT | action::INSTRUCT_BYTES, 0) => self.entries += 1,
            (action::INSTRUCT | action::INSTRUCT_BYTES, 13) => self.stuck = true,
            _ => {}
        }
    }

    fn add_any(&mut self, draft: &mut Draft) {
        if !self.running {
            if self.rng.chance(4) {
                return self.add_movement(draft);
            }
            let call = self.shut_call(draft.blocks);
            return self.add(draft, call);
        }
        if self.stuck && self.rng.chance(30) || self.rng.chance(5) {
            return self.add_reopening(draft);
        }
        let call = self.engine_call();
        self.add(draft, call);
    }

    /// A close, and mostly what follows it: a restart or a format, an open, and the slip presented.
    fn add_reopening(&mut self, draft: &mut Draft) {
        self.add(draft, Call::of(action::CLOSE));
        if self.rng.chance(20) {
            return;
        }
        if self.rng.chance(80) {
            let restart = self.restart();
            self.add(draft, restart);
        }
        if self.stuck && self.rng.chance(40) {
            self.add_format(draft);
        }
        self.add(draft, Call::of(action::OPEN));
        if self.rng.chance(80) {
            self.add(draft, Call::of(action::PRESENT));
        }
    }

    /// A credit to a book, a block of it, and a transfer or a release.
    fn add_movement(&mut self, draft: &mut Draft) {
        let side = self.rng.below(2) as usize;
        let (account, item) = (self.account(), self.item(side));
        for action in [0, 1, self.rng.between(2, 3) as u8, 4] {
            let fields = Instruction {
                account,
                counterparty: self.account(),
                item,
                quantity: self.amount(side),
                ..Instruction::default()
            };
            self.add(draft, Call { fields, ..Call::of(action::BOOK + 10 * side as u8 + action) });
        }
    }

    fn add_format(&mut self, draft: &mut Draft) {
        let format = self.format(draft.blocks);
        self.add(draft, format);
    }

    fn calls_left(&mut self) -> u32 {
        match self.rng.below(10) {
            0..=4 => u32::MAX,
            5 => self.rng.below(8) as u32,
            6 => self.rng.below(2 * u64::from(self.entries) + 4) as u32,
            7..=8 => 2 + 2 * self.entries + self.rng.below(13) as u32,
            _ => self.rng.between(0, 300) as u32,
        }
    }

    /// Remains, blocks of a journal, random bytes, and zeros for reads to fill.
    fn data(&mut self) -> Vec<u8> {
        let mut data = Vec::new();
        for _ in 0..BLOCK {
            data.push(self.rng.pick(&[0, 0, 1, 1, 1, 2, 3, 3, 4, 255]));
        }
        data.extend([0; BLOCK]);
        data.extend(self.header().to_block());
        for entry in [self.entries, 0] {
            let x = if self.rng.chance(30) { self.wild() } else { self.live() };
            data.extend(journal::mark(entry));
            data.extend(journal::record(entry, &x));
        }
        for _ in 0..BLOCK {
            data.push(self.rng.next() as u8);
        }
        data.resize(SLOTS as usize * BLOCK, 0);
        data
    }

    fn engine_call(&mut self) -> Call {
        match self.rng.below(100) {
            0..=59 => Call { fields: self.instruction(), ..Call::of(action::INSTRUCT) },
            60..=64 => self.instruct_bytes(),
            65..=92 => self.question(),
            93..=95 => Call::of(action::PRESENT),
            96 => Call::of(action::FILE),
            _ => self.any_call(),
        }
    }

    fn shut_call(&mut self, blocks: u32) -> Call {
        match self.rng.below(100) {
            0..=29 => Call::of(action::OPEN),
            30..=44 => self.restart(),
            45..=49 => self.format(blocks),
            50..=61 => self.block_call(action::READ, blocks),
            62..=70 => self.block_call(action::WRITE, blocks),
            71..=74 => Call::of(action::SYNC),
            75 => Call::of(action::SIZE),
            76..=94 => self.book_call(),
            95..=96 => Call::of(action::FILE),
            _ => self.any_call(),
        }
    }

    /// A call that may or may not fit. It neither opens nor closes.
    fn any_call(&mut self) -> Call {
        let fields = self.instruction();
        let length = self.rng.below(40) as u32;
        let number = self.boundary() as u32;
        Call { action: self.rng.between(2, 255) as u8, fields, number, from: 0, length }
    }

    fn format(&mut self, blocks: u32) -> Call {
        self.pairs = (blocks.saturating_sub(1) / 2).clamp(1, 32_767);
        let number = if self.rng.chance(75) { self.pairs } else { self.number_of_pairs() };
        self.forget();
        Call { number, ..Call::of(action::FORMAT) }
    }

    fn forget(&mut self) {
        self.steps.clear();
        self.owners = Default::default();
    }

    fn restart(&mut self) -> Call {
        let length = if self.rng.chance(80) { self.rng.below(6) } else { self.rng.below(300) } as u32;
        let from = self.rng.below(200) as u32;
        Call { number: self.calls_left(), from, length, ..Call::of(action::RESTART) }
    }

    fn block_call(&mut self, action: u8, blocks: u32) -> Call {
        let number = if self.rng.chance(85) {
            self.rng.below(u64::from(blocks) + 1) as u32
        } else {
            let choices = [blocks, blocks + 1, 65_534, 65_535, 65_536, u32::MAX];
            self.rng.pick(&choices)
        };
        let slot = if action == action::READ { self.rng.between(BUFFERS, SLOTS - 1) } else { self.rng.below(SLOTS) };
        let (mut from, mut length) = (slot as u32 * BLOCK as u32, BLOCK as u32);
        if self.rng.chance(10) {
            length = self.rng.pick(&[0, 1, 255, 257, 512]);
        }
        if self.rng.chance(2) {
            from = self.rng.pick(&[1, 4095, 4096, 4097, u32::MAX]);
        }
        Call { number, from, length, ..Call::of(action) }
    }

    fn instruct_bytes(&mut self) -> Call {
        let (mut from, mut length) = (self.rng.pick(&[4, 6]) * BLOCK as u32 + 8, 32);
        if self.rng.chance(20) {
            from += self.rng.pick(&[1, 2, 24, 256, 3 * 256]);
        }
        if self.rng.chance(15) {
            length = self.rng.pick(&[0, 1, 31, 33, 64]);
        }
        Call { from, length, ..Call::of(action::INSTRUCT_BYTES) }
    }

    fn question(&mut self) -> Call {
        let choices = [
            action::SECURITIES,
            action::SECURITIES,
            action::MONEY,
            action::MONEY,
            action::TRADE_STATE,
            action::TRADE_STATE,
            action::ENTRIES,
            action::OPENING,
            action::FOUND,
        ];
        let action = self.rng.pick(&choices);
        let fields = Instruction {
            account: self.account(),
            item: self.item(0),
            currency: self.item(1),
            trade: self.trade(),
            ..Instruction::default()
        };
        Call { fields, ..Call::of(action) }
    }

    fn book_call(&mut self) -> Call {
        let side = self.rng.below(2) as usize;
        let action = action::BOOK + 10 * side as u8 + self.rng.pick(&[0, 0, 1, 1, 2, 3, 4, 5, 6, 7, 8]);
        let item = self.item(side);
        let mut fields = Instruction {
            account: self.account(),
            counterparty: self.account(),
            item,
            quantity: self.amount(side),
            ..Instruction::default()
        };
        if self.rng.chance(60) {
            fields.account = self.owners[side].get(&item).copied().unwrap_or(fields.account);
        }
        if self.rng.chance(15) {
            self.spoil(&mut fields);
        }
        if action % 10 == 0 {
            self.owners[side].insert(item, fields.account);
        }
        Call { fields, ..Call::of(action) }
    }

    /// Changes some of the fields of a call to a book, so that more than one check may apply.
    fn spoil(&mut self, fields: &mut Instruction) {
        if self.rng.chance(50) {
            fields.account = self.boundary() as u16;
        }
        if self.rng.chance(50) {
            fields.counterparty = self.boundary() as u16;
        }
        if self.rng.chance(50) {
            fields.item = self.boundary() as u16;
        }
        if self.rng.chance(50) {
            fields.quantity = self.boundary();
        }
    }

    fn boundary(&mut self) -> u64 {
        self.rng.pick(&BOUNDARIES)
    }

    fn account(&mut self) -> u16 {
        if self.rng.chance(2) {
            self.rng.pick(&[64, 65, 65_535])
        } else {
            self.rng.pick(&[0, 1, 2, 63])
        }
    }

    fn item(&mut self, side: usize) -> u16 {
        if self.rng.chance(2) {
            self.rng.pick(&[16, 255, 256, 65_535])
        } else if self.kinds[side] == 1 {
            self.rng.pick(&[0, 1, 15])
        } else {
            self.rng.pick(&[0, 1, 2, 16, 255])
        }
    }

    fn trade(&mut self) -> u32 {
        if self.rng.chance(3) {
            self.rng.pick(&[128, 129, 65_536, u32::MAX])
        } else {
            self.rng.pick(&[0, 1, 2, 3, 4, 5, 6, 127])
        }
    }

    fn amount(&mut self, side: usize) -> u64 {
        if self.kinds[side] == 2 {
            self.rng.pick(&[1, 1, 1, 1, 1, 1, 1, 1, 1, 2])
        } else if self.rng.chance(3) {
            self.rng.pick(&[999_999_999_990, 1_000_000_000_000, 1_000_000_000_001])
        } else {
            self.rng.between(1, 9)
        }
    }

    fn instruction(&mut self) -> Instruction {
        if self.rng.chance(12) {
            self.wild()
        } else {
            self.live()
        }
    }

    /// An instruction that has a good chance to be accepted.
    fn live(&mut self) -> Instruction {
        match self.rng.below(10) {
            0..=1 => self.credit(ISSUE),
            2..=3 => self.credit(PAY_IN),
            4..=5 => self.enter(),
            _ => self.step(),
        }
    }

    fn credit(&mut self, kind: u8) -> Instruction {
        let side = usize::from(kind == PAY_IN);
        let (account, item, amount) = (self.account(), self.item(side), self.amount(side));
        self.owners[side].entry(item).or_insert(account);
        match kind {
            ISSUE => Instruction::issue(account, item, amount),
            _ => Instruction::pay_in(account, item, amount),
        }
    }

    fn enter(&mut self) -> Instruction {
        let trade = self.trade();
        let (item, currency) = (self.item(0), self.item(1));
        let (quantity, amount) = (self.amount(0), self.amount(1));
        let (mut account, mut counterparty) = (self.account(), self.account());
        if self.rng.chance(85) {
            account = self.owners[0].get(&item).copied().unwrap_or(account);
            counterparty = self.owners[1].get(&currency).copied().unwrap_or(counterparty);
        }
        self.steps.entry(trade).or_insert(EARMARK);
        Instruction { kind: ENTER, account, counterparty, item, currency, trade, quantity, amount }
    }

    fn step(&mut self) -> Instruction {
        let trades: Vec<u32> = self.steps.keys().copied().collect();
        if trades.is_empty() || self.rng.chance(5) {
            return Instruction::of_trade(self.rng.between(4, 7) as u8, self.trade());
        }
        let trade = self.rng.pick(&trades);
        let kind = self.steps[&trade];
        if self.rng.chance(12) {
            return Instruction::of_trade(FREE, trade);
        }
        self.steps.insert(trade, (kind + 1).min(FREE));
        Instruction::of_trade(kind, trade)
    }

    /// Any kind and any fields.
    fn wild(&mut self) -> Instruction {
        let mut x = self.live();
        for _ in 0..self.rng.between(1, 2) {
            let value = if self.rng.chance(70) { self.boundary() } else { self.rng.next() };
            match self.rng.below(8) {
                0 => x.kind = self.rng.pick(&[0, 1, 2, 3, 4, 5, 6, 7, 8, 255]),
                1 => x.account = value as u16,
                2 => x.counterparty = value as u16,
                3 => x.item = value as u16,
                4 => x.currency = value as u16,
                5 => x.trade = value as u32,
                6 => x.quantity = value,
                _ => x.amount = value,
            }
        }
        x
    }
}
