//! Block devices: what one is, and two of them, each over its image.

use std::collections::BTreeSet;

use crate::fault::{Fault, Refusal};

pub const BLOCK: usize = 256;
pub const MOST_BLOCKS: usize = 65_535;

pub type Bytes = [u8; BLOCK];

/// A device of `size` blocks that carries out a number of calls and no more.
pub trait Device {
    fn read(&mut self, block: u32, buffer: &mut [u8]) -> Result<(), Fault>;
    fn write(&mut self, block: u32, bytes: &[u8]) -> Result<(), Fault>;
    fn sync(&mut self) -> Result<(), Fault>;
    fn size(&self) -> u32;
}

/// A device whose power can be cut. A restart is never refused.
pub trait PoweredDevice: Device {
    fn restart(&mut self, calls: u32, remains: &[u8]);
}

/// What both devices are made of: an image in rows of one length, and the calls left; with the checks that they share.
#[derive(Clone, Debug)]
struct Rows<const ROW: usize> {
    image: Vec<u8>,
    blocks: usize,
    left: u32,
}

impl<const ROW: usize> Rows<ROW> {
    fn new(image: Vec<u8>, calls: u32) -> Rows<ROW> {
        let blocks = (image.len() / ROW).min(MOST_BLOCKS);
        Rows { image, blocks, left: calls }
    }

    fn row(&mut self, row: usize) -> &mut [u8] {
        &mut self.image[row * ROW..(row + 1) * ROW]
    }

    /// Checks a call of a block, and spends it if it may be made. Gives the number of the block's row.
    fn spend_on(&mut self, block: u32, length: usize) -> Result<usize, Fault> {
        let fault = |refusal: Refusal| Err(Fault::from(refusal).at_block(block));
        let row = block as usize;
        if row >= self.blocks {
            return fault(Refusal::NoBlock);
        }
        if length != BLOCK {
            return fault(Refusal::NotABlock);
        }
        if self.left == 0 {
            return fault(Refusal::NoCalls);
        }
        self.left -= 1;
        Ok(row)
    }

    fn spend(&mut self) -> Result<(), Fault> {
        self.left = self.left.checked_sub(1).ok_or(Refusal::NoCalls)?;
        Ok(())
    }
}

/// The simulated device. A row of its image is 514 bytes: 0 if readable, the kept bytes, 0 if not loose, the newer bytes.
#[derive(Clone, Debug)]
pub struct Simulated {
    rows: Rows<{ Simulated::ROW }>,
    /// The loose blocks' rows, so that a sync need not go over them all.
    loose: BTreeSet<usize>,
}

impl Simulated {
    pub const ROW: usize = 514;
    const KEPT: usize = 1;
    const LOOSE: usize = 257;
    const NEWER: usize = 258;

    pub fn new(image: Vec<u8>, calls: u32) -> Simulated {
        let mut rows = Rows::new(image, calls);
        let loose = (0..rows.blocks).filter(|row| rows.row(*row)[Self::LOOSE] != 0).collect();
        Simulated { rows, loose }
    }

    pub fn into_image(self) -> Vec<u8> {
        self.rows.image
    }

    pub fn left(&self) -> u32 {
        self.rows.left
    }
}

/// Copies the first bytes of a row's newer half into its kept half, and makes the block readable.
fn keep(row: &mut [u8], length: usize) {
    row[0] = 0;
    row.copy_within(Simulated::NEWER..Simulated::NEWER + length, Simulated::KEPT);
}

impl Device for Simulated {
    fn read(&mut self, block: u32, buffer: &mut [u8]) -> Result<(), Fault> {
        let row = self.rows.spend_on(block, buffer.len())?;
        let row = self.rows.row(row);
        let from = if row[Self::LOOSE] != 0 {
            Self::NEWER
        } else if row[0] == 0 {
            Self::KEPT
        } else {
            return Err(Fault::from(Refusal::Unreadable).at_block(block));
        };
        buffer.copy_from_slice(&row[from..from + BLOCK]);
        Ok(())
    }

    fn write(&mut self, block: u32, bytes: &[u8]) -> Result<(), Fault> {
        let number = self.rows.spend_on(block, bytes.len())?;
        let row = self.rows.row(number);
        row[Self::LOOSE] = 1;
        row[Self::NEWER..].copy_from_slice(bytes);
        self.loose.insert(number);
        Ok(())
    }

    fn sync(&mut self) -> Result<(), Fault> {
        self.rows.spend()?;
        for number in std::mem::take(&mut self.loose) {
            let row = self.rows.row(number);
            keep(row, BLOCK);
            row[Self::LOOSE] = 0;
        }
        Ok(())
    }

    fn size(&self) -> u32 {
        self.rows.blocks as u32
    }
}

impl PoweredDevice for Simulated {
    fn restart(&mut self, calls: u32, remains: &[u8]) {
        let mut remains = remains.iter();
        for number in std::mem::take(&mut self.loose) {
            let remain = *remains.next().unwrap_or(&0);
            let row = self.rows.row(number);
            match remain {
                0 => {}
                1 => keep(row, BLOCK),
                2 => row[0] = 1,
                3 if row[0] != 0 => row[0] = 1,
                3 => keep(row, BLOCK / 2),
                value => {
                    row[0] = 0;
                    row[Self::KEPT..Self::LOOSE].fill(value);
                }
            }
            row[Self::LOOSE] = 0;
        }
        self.rows.left = calls;
    }
}

/// The battery-backed device. A row of its image is 257 bytes: 0 if readable, the block's bytes. Nothing is ever loose.
#[derive(Clone, Debug)]
pub struct Battery {
    rows: Rows<{ Battery::ROW }>,
}

impl Battery {
    pub const ROW: usize = 257;

    pub fn new(image: Vec<u8>, calls: u32) -> Battery {
        Battery { rows: Rows::new(image, calls) }
    }

    pub fn into_image(self) -> Vec<u8> {
        self.rows.image
    }

    pub fn left(&self) -> u32 {
        self.rows.left
    }
}

impl Device for Battery {
    fn read(&mut self, block: u32, buffer: &mut [u8]) -> Result<(), Fault> {
        let row = self.rows.spend_on(block, buffer.len())?;
        let row = self.rows.row(row);
        if row[0] != 0 {
            return Err(Fault::from(Refusal::Unreadable).at_block(block));
        }
        buffer.copy_from_slice(&row[1..]);
        Ok(())
    }

    fn write(&mut self, block: u32, bytes: &[u8]) -> Result<(), Fault> {
        let row = self.rows.spend_on(block, bytes.len())?;
        let row = self.rows.row(row);
        row[0] = 0;
        row[1..].copy_from_slice(bytes);
        Ok(())
    }

    fn sync(&mut self) -> Result<(), Fault> {
        self.rows.spend()
    }

    fn size(&self) -> u32 {
        self.rows.blocks as u32
    }
}

impl PoweredDevice for Battery {
    fn restart(&mut self, calls: u32, _remains: &[u8]) {
        self.rows.left = calls;
    }
}

#[cfg(test)]
mod tests {
    use super::*;

    fn number(answer: Result<(), Fault>) -> u8 {
        answer.map_or_else(|fault| fault.number(), |()| 0)
    }

    /// A device of one row, whose kept bytes are 7 and whose newer bytes are 9.
    fn one(readable: u8, loose: u8, calls: u32) -> Simulated {
        let mut image = vec![readable];
        image.extend([7; 256]);
        image.push(loose);
        image.extend([9; 256]);
        Simulated::new(image, calls)
    }

    #[test]
    fn whole_rows_are_blocks() {
        for (length, size) in [(0, 0), (513, 0), (514, 1), (1027, 1), (65_278, 127)] {
            assert_eq!(Simulated::new(vec![0; length], 0).size(), size);
        }
        assert_eq!(Simulated::new(vec![0; 514 * 65_537], 0).size(), 65_535);
        assert_eq!(Battery::new(vec![0; 256], 0).size(), 0);
        assert_eq!(Battery::new(vec![0; 257 * 65_537], 0).size(), 65_535);
    }

    #[test]
    fn checks_come_in_their_order() {
        let mut device = one(1, 0, 1);
        let mut buffer = [0; 256];
        assert_eq!(number(device.read(1, &mut [])), 11);
        assert_eq!(number(device.read(0, &mut [])), 12);
        assert_eq!(device.left(), 1);
        assert_eq!(number(device.read(0, &mut buffer)), 14);
        assert_eq!(number(device.read(0, &mut buffer)), 13);
        assert_eq!(number(device.write(0, &[1; 256])), 13);
        assert_eq!(device.sync(), Err(Refusal::NoCalls.into()));
        assert_eq!(device.read(5, &mut buffer).unwrap_err().block, Some(5));
        assert_eq!(buffer, [0; 256]);
        assert_eq!(device.into_image(), one(1, 0, 0).into_image());
    }

    #[test]
    fn a_loose_block_reads_as_newer() {
        let mut buffer = [0; 256];
        for readable in [0, 1] {
            assert_eq!(one(readable, 5, 1).read(0, &mut buffer), Ok(()));
            assert_eq!(buffer, [9; 256]);
        }
        assert_eq!(one(0, 0, 1).read(0, &mut buffer), Ok(()));
        assert_eq!(buffer, [7; 256]);
    }

    #[test]
    fn a_write_is_loose_until_a_sync() {
        let mut device = one(1, 0, 9);
        device.write(0, &[3; 256]).unwrap();
        let image = device.clone().into_image();
        assert_eq!((image[0], image[1], image[257], image[258]), (1, 7, 1, 3));
        device.sync().unwrap();
        let image = device.into_image();
        assert_eq!((image[0], image[1], image[257], image[258]), (0, 3, 0, 3));
    }

    #[test]
    fn each_remain_has_its_row() {
        let row = |readable: u8, remain: u8| {
            let mut device = one(readable, 1, 0);
            device.restart(3, &[remain, 200]);
            assert_eq!(device.left(), 3);
            let image = device.into_image();
            assert_eq!((image[257], image[258]), (0, 9));
            (image[0], image[1], image[128], image[129], image[256])
        };
        assert_eq!(row(0, 0), (0, 7, 7, 7, 7));
        assert_eq!(row(8, 0), (8, 7, 7, 7, 7));
        assert_eq!(row(1, 1), (0, 9, 9, 9, 9));
        assert_eq!(row(0, 2), (1, 7, 7, 7, 7));
        assert_eq!(row(0, 3), (0, 9, 9, 7, 7));
        assert_eq!(row(1, 3), (1, 7, 7, 7, 7));
        assert_eq!(row(1, 4), (0, 4, 4, 4, 4));
        assert_eq!(row(0, 255), (0, 255, 255, 255, 255));
    }

    #[test]
    fn remains_go_to_loose_blocks_in_rising_order() {
        let mut device = Simulated::new(vec![0; 4 * 514 + 3], 9);
        for block in [3, 0, 2] {
            device.write(block, &[block as u8 + 10; 256]).unwrap();
        }
        device.restart(u32::MAX, &[40, 1]);
        let mut buffer = [0; 256];
        for (block, byte) in [(0, 40), (1, 0), (2, 12), (3, 0)] {
            device.read(block, &mut buffer).unwrap();
            assert_eq!(buffer, [byte; 256]);
        }
    }

    #[test]
    fn a_battery_keeps_what_was_written() {
        let mut device = Battery::new(vec![1; 2 * 257 + 5], 2);
        device.write(1, &[6; 256]).unwrap();
        device.restart(2, &[2, 2, 2]);
        let mut buffer = [0; 256];
        device.read(1, &mut buffer).unwrap();
        assert_eq!(buffer, [6; 256]);
        assert_eq!(number(device.read(0, &mut buffer)), 14);
        assert_eq!(number(device.sync()), 13);
        let mut expected = vec![1; 257];
        expected.push(0);
        expected.extend([6; 256]);
        expected.extend([1; 5]);
        assert_eq!(device.into_image(), expected);
    }
}
