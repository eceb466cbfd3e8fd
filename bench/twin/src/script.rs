//! The reader of scripts.

use crate::instruction::{Instruction, EARMARK, ENTER, FREE, FUND, SETTLE};

/// The most bytes that a script has.
pub const MOST_BYTES: usize = 65_536;

const MOST_REMAINS: usize = 8;

/// What a line asks for.
#[derive(Clone, PartialEq, Eq, Debug)]
pub enum Line {
    Instruct(Instruction),
    Securities { account: u16, item: u16 },
    Money { account: u16, currency: u16 },
    Cut { calls: u32, remains: Vec<u8> },
}

/// The lines of a script. A line feed ends a line, and may be missing after the last one.
pub fn lines(script: &[u8]) -> impl Iterator<Item = &[u8]> {
    script.split_inclusive(|byte| *byte == b'\n').map(|line| line.strip_suffix(b"\n").unwrap_or(line))
}

/// What a line asks for, if it has one of the listed forms.
pub fn read(line: &[u8]) -> Option<Line> {
    let (letter, rest) = line.split_first()?;
    let fields: Vec<&[u8]> = rest.strip_prefix(b" ")?.split(|byte| *byte == b' ').collect();
    Some(match (letter, &fields[..]) {
        (b'I', [account, item, quantity]) => {
            Line::Instruct(Instruction::issue(two(account)?, two(item)?, eight(quantity)?))
        }
        (b'D', [account, currency, amount]) => {
            Line::Instruct(Instruction::pay_in(two(account)?, two(currency)?, eight(amount)?))
        }
        (b'T', [seller, buyer, item, currency, trade, quantity, amount]) => Line::Instruct(Instruction {
            kind: ENTER,
            account: two(seller)?,
            counterparty: two(buyer)?,
            item: two(item)?,
            currency: two(currency)?,
            trade: four(trade)?,
            quantity: eight(quantity)?,
            amount: eight(amount)?,
        }),
        (b'E', [trade]) => Line::Instruct(Instruction::of_trade(EARMARK, four(trade)?)),
        (b'L', [trade]) => Line::Instruct(Instruction::of_trade(FUND, four(trade)?)),
        (b'S', [trade]) => Line::Instruct(Instruction::of_trade(SETTLE, four(trade)?)),
        (b'F', [trade]) => Line::Instruct(Instruction::of_trade(FREE, four(trade)?)),
        (b'Q', [account, item]) => Line::Securities { account: two(account)?, item: two(item)? },
        (b'K', [account, currency]) => Line::Money { account: two(account)?, currency: two(currency)? },
        (b'C', [calls, remains @ ..]) if remains.len() <= MOST_REMAINS => {
            Line::Cut { calls: four(calls)?, remains: remains.iter().map(|field| one(field)).collect::<Option<_>>()? }
        }
        _ => return None,
    })
}

fn one(field: &[u8]) -> Option<u8> {
    eight(field)?.try_into().ok()
}

fn two(field: &[u8]) -> Option<u16> {
    eight(field)?.try_into().ok()
}

fn four(field: &[u8]) -> Option<u32> {
    eight(field)?.try_into().ok()
}

/// A decimal number that eight bytes can hold, without leading zeros or sign.
fn eight(field: &[u8]) -> Option<u64> {
    if field.is_empty() || (field[0] == b'0' && field.len() > 1) {
        return None;
    }
    field.iter().try_fold(0u64, |number, byte| {
        let digit = byte.is_ascii_digit().then(|| u64::from(byte - b'0'))?;
        number.checked_mul(10)?.checked_add(digit)
    })
}

#[cfg(test)]
mod tests {
    use super::*;

    fn texts(script: &str) -> Vec<&[u8]> {
        lines(script.as_bytes()).collect()
    }

    #[test]
    fn a_line_feed_ends_a_line() {
        assert!(texts("").is_empty());
        assert_eq!(texts("\n"), [b""]);
        assert_eq!(texts("a\nb"), [b"a", b"b"]);
        assert_eq!(texts("a\n\nb\n"), [&b"a"[..], b"", b"b"]);
    }

    #[test]
    fn listed_forms_are_read() {
        assert_eq!(read(b"I 1 2 3"), Some(Line::Instruct(Instruction::issue(1, 2, 3))));
        assert_eq!(read(b"D 1 2 3"), Some(Line::Instruct(Instruction::pay_in(1, 2, 3))));
        let enter = Instruction {
            kind: 3,
            account: 1,
            counterparty: 2,
            item: 3,
            currency: 4,
            trade: 5,
            quantity: 6,
            amount: 7,
        };
        assert_eq!(read(b"T 1 2 3 4 5 6 7"), Some(Line::Instruct(enter)));
        for (letter, kind) in [("E", 4), ("L", 5), ("S", 6), ("F", 7)] {
            let line = format!("{letter} 4294967295");
            assert_eq!(read(line.as_bytes()), Some(Line::Instruct(Instruction::of_trade(kind, u32::MAX))));
        }
        assert_eq!(read(b"Q 65535 0"), Some(Line::Securities { account: 65535, item: 0 }));
        assert_eq!(read(b"K 0 65535"), Some(Line::Money { account: 0, currency: 65535 }));
        assert_eq!(read(b"C 4294967295"), Some(Line::Cut { calls: u32::MAX, remains: vec![] }));
        let remains = vec![0, 1, 2, 3, 4, 5, 6, 255];
        assert_eq!(read(b"C 0 0 1 2 3 4 5 6 255"), Some(Line::Cut { calls: 0, remains }));
        assert!(read(b"I 0 0 18446744073709551615").is_some());
    }

    #[test]
    fn other_lines_are_not() {
        let others: [&[u8]; 32] = [
            b"",
            b" ",
            b"I",
            b"C",
            b"C ",
            b"X 1",
            b"i 1 2 3",
            b"I 1 2",
            b"I 1 2 3 4",
            b"I  1 2 3",
            b"I 1 2  3",
            b"I 1 2 3 ",
            b" I 1 2 3",
            b"I 1 2 3\r",
            b"I\t1 2 3",
            b"I 01 2 3",
            b"I 00 2 3",
            b"I +1 2 3",
            b"I -1 2 3",
            b"I 1 2 \xB3",
            b"I 65536 0 1",
            b"I 0 65536 1",
            b"I 0 0 18446744073709551616",
            b"I 0 0 100000000000000000000000",
            b"E 4294967296",
            b"E 1 2",
            b"EE 1",
            b"E1",
            b"C 4294967296",
            b"C 1 256",
            b"C 1 0 0 0 0 0 0 0 0 0",
            b"C 1 1 ",
        ];
        for other in others {
            assert_eq!(read(other), None, "{}", String::from_utf8_lossy(other));
        }
    }
}
