//! The journal: a header, and for each entry a record and a mark.

use crate::book::Book;
use crate::device::{Bytes, Device, BLOCK};
use crate::fault::{Fault, Refusal};
use crate::instruction::{self, Instruction};

pub const MOST_PAIRS: u32 = 32_767;

const EDITION: u8 = 1;
const BOOKS: u8 = 2;
const ZEROS: Bytes = [0; BLOCK];

#[derive(Clone, Copy, PartialEq, Eq, Debug)]
pub struct Header {
    /// The kind bytes of the register and of the cash book.
    pub kinds: [u8; 2],
    /// The number of pairs of record and mark.
    pub pairs: u32,
}

impl Header {
    pub fn for_books(register: &impl Book, cash: &impl Book, pairs: u32) -> Header {
        Header { kinds: [register.kind(), cash.kind()], pairs }
    }

    pub fn to_block(&self) -> Bytes {
        let mut bytes = ZEROS;
        bytes[0] = EDITION;
        bytes[1] = BOOKS;
        bytes[2..4].copy_from_slice(&self.kinds);
        bytes[4..8].copy_from_slice(&self.pairs.to_le_bytes());
        bytes
    }

    pub fn from_block(bytes: &Bytes) -> Result<Header, Refusal> {
        let header = Header { kinds: [bytes[2], bytes[3]], pairs: number_at(bytes, 4) };
        if !pairs_allowed(header.pairs) || header.to_block() != *bytes {
            return Err(Refusal::NoHeader);
        }
        Ok(header)
    }
}

pub fn record_block(entry: u32) -> u32 {
    1 + 2 * entry
}

pub fn mark_block(entry: u32) -> u32 {
    2 + 2 * entry
}

pub fn record(entry: u32, x: &Instruction) -> Bytes {
    let mut bytes = ZEROS;
    bytes[..4].copy_from_slice(&entry.to_le_bytes());
    bytes[4] = 1;
    bytes[8..8 + instruction::LENGTH].copy_from_slice(&x.to_bytes());
    bytes
}

/// The instruction in an entry's record.
pub fn instruction_in(entry: u32, bytes: &Bytes) -> Result<Instruction, Refusal> {
    let x = Instruction::from_bytes(&bytes[8..8 + instruction::LENGTH])?;
    if record(entry, &x) != *bytes {
        return Err(Refusal::BadBytes);
    }
    Ok(x)
}

pub fn mark(entry: u32) -> Bytes {
    let mut bytes = ZEROS;
    bytes[..4].copy_from_slice(&entry.to_le_bytes());
    bytes[4..8].copy_from_slice(&(u32::MAX - entry).to_le_bytes());
    bytes
}

/// Reads the header of a journal for these books.
pub fn read_header(device: &mut impl Device, register: &impl Book, cash: &impl Book) -> Result<Header, Fault> {
    let mut bytes = ZEROS;
    device.read(0, &mut bytes)?;
    let header = Header::from_block(&bytes)?;
    if header.kinds != [register.kind(), cash.kind()] {
        return Err(Refusal::OtherBooks.into());
    }
    if !pairs_fit(header.pairs, device) {
        return Err(Refusal::TooFewBlocks.into());
    }
    Ok(header)
}

/// Reads an entry: nothing where its mark is unreadable or not good.
pub fn read_entry(device: &mut impl Device, entry: u32) -> Result<Option<Instruction>, Fault> {
    let mut bytes = ZEROS;
    match device.read(mark_block(entry), &mut bytes) {
        Err(fault) if fault.refusal == Refusal::Unreadable => return Ok(None),
        answer => answer.map_err(|fault| fault.at_entry(entry))?,
    }
    if bytes != mark(entry) {
        return Ok(None);
    }
    device.read(record_block(entry), &mut bytes).map_err(|fault| fault.at_entry(entry))?;
    let x = instruction_in(entry, &bytes).map_err(|refusal| Fault::from(refusal).at_entry(entry))?;
    Ok(Some(x))
}

/// Writes an entry: its record first, and its mark only when the record is safe.
pub fn write_entry(device: &mut impl Device, entry: u32, x: &Instruction) -> Result<(), Fault> {
    device.write(record_block(entry), &record(entry, x))?;
    device.sync()?;
    device.write(mark_block(entry), &mark(entry))?;
    device.sync()
}

/// Makes a device into a journal with no entries.
pub fn format(device: &mut impl Device, pairs: u32, register: &impl Book, cash: &impl Book) -> Result<(), Fault> {
    if !pairs_allowed(pairs) || !pairs_fit(pairs, device) {
        return Err(Refusal::BadFormat.into());
    }
    device.write(0, &ZEROS)?;
    device.sync()?;
    for entry in 0..pairs {
        device.write(mark_block(entry), &ZEROS)?;
    }
    device.sync()?;
    device.write(0, &Header::for_books(register, cash, pairs).to_block())?;
    device.sync()
}

fn pairs_allowed(pairs: u32) -> bool {
    (1..=MOST_PAIRS).contains(&pairs)
}

/// Whether a device has the blocks for a number of pairs that is allowed.
fn pairs_fit(pairs: u32, device: &impl Device) -> bool {
    device.size() > 2 * pairs
}

fn number_at(bytes: &Bytes, at: usize) -> u32 {
    u32::from_le_bytes([bytes[at], bytes[at + 1], bytes[at + 2], bytes[at + 3]])
}

#[cfg(test)]
mod tests {
    use super::*;
    use crate::book::{Balances, Lots};
    use crate::device::{PoweredDevice, Simulated};

    fn device(blocks: usize, calls: u32) -> Simulated {
        Simulated::new(vec![0; blocks * Simulated::ROW], calls)
    }

    fn formatted(device: &mut Simulated, pairs: u32) -> Result<(), Fault> {
        format(device, pairs, &Balances::new(), &Balances::new())
    }

    #[test]
    fn mark_0_has_its_bytes() {
        let mut expected = [0; 256];
        expected[4..8].fill(255);
        assert_eq!(mark(0), expected);
        assert!((0..MOST_PAIRS).all(|entry| mark(entry) != [0; 256]));
    }

    #[test]
    fn a_header_is_exact() {
        let header = Header::for_books(&Lots::new(), &Balances::new(), 32_767);
        let block = header.to_block();
        assert_eq!(block[..8], [1, 2, 2, 1, 255, 127, 0, 0]);
        assert_eq!(Header::from_block(&block), Ok(header));
        for at in [0, 1, 5, 6, 7, 8, 255] {
            let mut other = block;
            other[at] ^= 128;
            assert_eq!(Header::from_block(&other), Err(Refusal::NoHeader), "byte {at}");
        }
        assert_eq!(Header::from_block(&[0; 256]), Err(Refusal::NoHeader));
        let none = Header { pairs: 0, ..header };
        assert_eq!(Header::from_block(&none.to_block()), Err(Refusal::NoHeader));
    }

    #[test]
    fn a_record_is_exact() {
        let x = Instruction::of_trade(4, 7);
        let block = record(258, &x);
        assert_eq!(block[..9], [2, 1, 0, 0, 1, 0, 0, 0, 4]);
        assert_eq!(instruction_in(258, &block), Ok(x));
        assert_eq!(instruction_in(257, &block), Err(Refusal::BadBytes));
        for at in [0, 4, 7, 9, 18, 19, 40, 255] {
            let mut other = block;
            other[at] ^= 1;
            assert_eq!(instruction_in(258, &other), Err(Refusal::BadBytes), "byte {at}");
        }
    }

    #[test]
    fn a_format_is_refused_before_any_call() {
        let mut device = device(127, 9);
        for pairs in [0, 64, 32_767, 32_768, u32::MAX] {
            assert_eq!(formatted(&mut device, pairs), Err(Refusal::BadFormat.into()));
        }
        assert_eq!(device.left(), 9);
    }

    #[test]
    fn a_format_answers_by_the_calls_left() {
        let pairs = 3;
        for calls in 0..=pairs + 6 {
            let mut device = device(7, calls);
            let answer = formatted(&mut device, pairs);
            let block = match calls {
                0 => Some(0),
                c if (2..=pairs + 1).contains(&c) => Some(2 + 2 * (c - 2)),
                c if c == pairs + 3 => Some(0),
                _ => None,
            };
            if calls >= pairs + 5 {
                assert_eq!(answer, Ok(()));
                assert_eq!(device.left(), calls - pairs - 5);
            } else {
                assert_eq!(answer, Err(Fault { block, ..Refusal::NoCalls.into() }));
            }
        }
    }

    #[test]
    fn a_format_leaves_no_entries() {
        let mut device = device(7, 100);
        formatted(&mut device, 3).unwrap();
        write_entry(&mut device, 0, &Instruction::issue(1, 2, 3)).unwrap();
        assert_eq!(read_entry(&mut device, 0), Ok(Some(Instruction::issue(1, 2, 3))));
        formatted(&mut device, 2).unwrap();
        device.restart(100, &[1; 8]);
        assert_eq!(read_entry(&mut device, 0), Ok(None));
        let header = read_header(&mut device, &Balances::new(), &Balances::new());
        assert_eq!(header, Ok(Header { kinds: [1, 1], pairs: 2 }));
        let refused = read_header(&mut device, &Lots::new(), &Balances::new());
        assert_eq!(refused, Err(Refusal::OtherBooks.into()));
    }
}
