//! The examination: a script is carried out line by line, and the key has an answer to each line.

use crate::book::Balances;
use crate::device::{PoweredDevice, Simulated};
use crate::engine::{Engine, Slip};
use crate::fault::{Fault, Refusal};
use crate::journal;
use crate::script::{self, Line};

const IMAGE: usize = 65_278;
const CALLS: u32 = 1_000_000;
const PAIRS: u32 = 63;

/// The key of a script.
pub fn key(script: &[u8]) -> String {
    if script.len() > script::MOST_BYTES {
        return format!("0 {}\n", Refusal::TooLong.number());
    }
    let mut exam = Exam::new();
    let mut key = String::new();
    for (index, line) in script::lines(script).enumerate() {
        key.push_str(&format!("{} {}\n", index + 1, exam.answer(line)));
    }
    exam.finish();
    key
}

/// An examination that is under way.
pub struct Exam {
    /// Always there, except during a cut.
    engine: Option<ExamEngine>,
    /// The newest slip that is not unknown, while it is owed.
    slip: Option<Slip>,
}

pub type ExamEngine = Engine<Simulated, Balances, Balances>;

impl Exam {
    #[allow(clippy::new_without_default)]
    pub fn new() -> Exam {
        let mut device = Simulated::new(vec![0; IMAGE], CALLS);
        let (register, cash) = (Balances::new(), Balances::new());
        journal::format(&mut device, PAIRS, &register, &cash).expect("the device has the blocks and the calls");
        Exam { engine: Some(Engine::open(device, register, cash)), slip: None }
    }

    pub fn engine(&self) -> &ExamEngine {
        self.engine.as_ref().expect("no cut is being made")
    }

    /// The answer to the next line, as it stands in the key after the line's number and a space.
    pub fn answer(&mut self, line: &[u8]) -> String {
        match script::read(line) {
            None => Refusal::BadLine.number().to_string(),
            Some(Line::Instruct(x)) => {
                let engine = self.engine.as_mut().expect("no cut is being made");
                number(engine.instruct(&x)).to_string()
            }
            Some(Line::Securities { account, item }) => amounts(self.engine().securities(account, item)),
            Some(Line::Money { account, currency }) => amounts(self.engine().money(account, currency)),
            Some(Line::Cut { calls, remains }) => self.cut(calls, &remains),
        }
    }

    fn cut(&mut self, calls: u32, remains: &[u8]) -> String {
        let engine = self.engine.take().expect("no cut is being made");
        let (mut device, register, cash, slip) = engine.close();
        let slip = match self.slip.take() {
            Some(kept) if slip.is_unknown() => {
                slip.file();
                kept
            }
            kept => {
                kept.map(Slip::file);
                slip
            }
        };
        device.restart(calls, remains);
        let engine = Engine::open(device, register, cash);
        let presented = match engine.present(slip) {
            Ok(verdict) => verdict.number(),
            Err((fault, slip)) => {
                self.slip = Some(slip);
                fault.number()
            }
        };
        let answer = format!("{} {} {}", number(engine.opening()), engine.found(), presented);
        self.engine = Some(engine);
        answer
    }

    /// Files the slips that are still owed.
    pub fn finish(self) {
        let slip = self.engine.map(|engine| engine.close().3);
        for slip in [slip, self.slip].into_iter().flatten() {
            slip.file();
        }
    }
}

fn number(answer: Result<(), Fault>) -> u8 {
    answer.map_or_else(|fault| fault.number(), |()| 0)
}

fn amounts(answer: Result<(u64, u64), Fault>) -> String {
    match answer {
        Ok((free, blocked)) => format!("0 {free} {blocked}"),
        Err(fault) => fault.number().to_string(),
    }
}

#[cfg(test)]
mod tests {
    use super::*;

    /// The key of a script, with a line of the script before each bar and its line of the key behind it.
    fn check(table: &str) {
        let rows: Vec<(&str, &str)> = table.lines().map(|row| row.split_once('|').unwrap()).collect();
        let script: Vec<&str> = rows.iter().map(|(line, _)| line.trim_end()).collect();
        let expected: String = rows.iter().map(|(_, answer)| format!("{}\n", answer.trim())).collect();
        assert_eq!(key(script.join("\n").as_bytes()), expected);
    }

    #[test]
    fn the_worked_example() {
        check(
            "I 1 0 100             | 1 0
D 2 0 5000            | 2 0
T 1 2 0 0 7 100 5000  | 3 0
E 7                   | 4 0
L 7                   | 5 0
C 15                  | 6 0 5 0
S 7                   | 7 13
C 100 1               | 8 0 6 1
Q 2 0                 | 9 0 100 0
S 7                   | 10 35",
        );
    }

    #[test]
    fn a_refused_opening_keeps_the_slip() {
        check(
            "I 1 0 100 | 1 0
C 7       | 2 0 1 0
I 1 0 1   | 3 13
C 0 1     | 4 13 0 41
Q 99 0    | 5 41
I 1 0 1   | 6 41
C 1 1     | 7 13 0 41
C 3       | 8 13 0 41
C 6       | 9 0 2 1
Q 1 0     | 10 0 101 0
C 6       | 11 0 2 0",
        );
    }

    #[test]
    fn the_opening_took_its_two_calls() {
        let mut exam = Exam::new();
        for _ in 0..63 {
            assert_eq!(exam.answer(b"I 1 0 1"), "0");
        }
        assert_eq!(exam.answer(b"I 1 0 1"), "36");
        assert_eq!(exam.answer(b"E 128"), "30");
        let (device, _, _, slip) = exam.engine.take().unwrap().close();
        slip.file();
        assert_eq!(device.left(), 1_000_000 - 68 - 2 - 63 * 4);
        assert_eq!(key(b"C 127"), "1 0 0 0\n");
    }

    #[test]
    fn a_full_journal_opens_in_127_calls() {
        let script = "I 1 0 1\n".repeat(64) + "C 126\nC 127\nQ 1 0";
        let key = key(script.as_bytes());
        assert!(key.ends_with("63 0\n64 36\n65 13 0 41\n66 0 63 0\n67 0 63 0\n"), "{key}");
    }

    #[test]
    fn scripts_have_a_length() {
        assert_eq!(key(b""), "");
        assert_eq!(key(b"\n"), "1 71\n");
        assert_eq!(key(&[b'x'; 65_537]), "0 73\n");
        assert_eq!(key(&[b'x'; 65_536]), "1 71\n");
        assert!(key(&[b'\n'; 65_536]).ends_with("\n65536 71\n"));
    }
}
