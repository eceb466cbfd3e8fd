//! Compares the proved program with the twin on random scripts.
//!
//! `compare PROGRAM COUNT FIRST_SEED [THREADS]` compares on the scripts of COUNT seeds in a row, and exits with 1 if any
//! key differs. `compare --script SEED` prints the script of a seed, and `compare --answers COUNT FIRST_SEED` how often
//! the twin gives each answer on the scripts of those seeds.
//!
//! The generator asks the twin how a script went so far, to decide what to write next. So a seed gives the same script as long as
//! the twin stays the same.

use std::collections::BTreeMap;
use std::io::{self, Write};
use std::process::{Command, ExitCode, Stdio};
use std::sync::atomic::{AtomicU64, Ordering};
use std::sync::Mutex;

use twin::exam::{self, Exam};
use twin::ledger::TradeState;
use twin::rng::{each_seed, Rng};
use twin::script;

fn main() -> ExitCode {
    let arguments: Vec<String> = std::env::args().skip(1).collect();
    let arguments: Vec<&str> = arguments.iter().map(String::as_str).collect();
    match arguments[..] {
        ["--script", seed] => show_script(number(seed)),
        ["--answers", count, first] => count_answers(number(count), number(first)),
        [program, count, first] => compare(program, number(count), number(first), 2),
        [program, count, first, threads] => compare(program, number(count), number(first), number(threads)),
        _ => {
            eprintln!("usage: compare EXAM_PATH COUNT FIRST_SEED [THREADS]");
            eprintln!("       compare --script SEED");
            eprintln!("       compare --answers COUNT FIRST_SEED");
            ExitCode::from(2)
        }
    }
}

fn number(text: &str) -> u64 {
    text.parse().unwrap_or_else(|_| panic!("{text} is no number"))
}

fn show_script(seed: u64) -> ExitCode {
    io::stdout().write_all(&generate(seed)).expect("standard output takes the script");
    ExitCode::SUCCESS
}

fn count_answers(count: u64, first: u64) -> ExitCode {
    let mut answers = BTreeMap::new();
    for seed in first..first + count {
        let script = generate(seed);
        let key = exam::key(&script);
        for (line, answer) in script::lines(&script).zip(key.lines()) {
            let mut fields: Vec<&str> = answer.split(' ').skip(1).collect();
            let letter = match line.first() {
                Some(byte) if !matches!(fields[..], ["71" | "73"]) => char::from(*byte),
                _ => '-',
            };
            if letter == 'C' {
                fields.remove(1);
            } else {
                fields.truncate(1);
            }
            *answers.entry(format!("{letter} {}", fields.join(" "))).or_insert(0u64) += 1;
        }
    }
    for (answer, times) in answers {
        println!("{answer:8} {times}");
    }
    ExitCode::SUCCESS
}

fn compare(program: &str, count: u64, first: u64, threads: u64) -> ExitCode {
    let lines = AtomicU64::new(0);
    let differing = Mutex::new(0u64);
    each_seed(count, first, threads, |seed| {
        let outcome = std::panic::catch_unwind(|| {
            let script = generate(seed);
            (script::lines(&script).count() as u64, difference(program, &script))
        });
        let (count, difference) = outcome.unwrap_or((0, Some("the twin panics".to_string())));
        lines.fetch_add(count, Ordering::Relaxed);
        if let Some(difference) = difference {
            *differing.lock().expect("no thread panics") += 1;
            println!("seed {seed}: {difference}");
        }
    });
    let differing = differing.into_inner().expect("no thread panics");
    println!(
        "{count} scripts, {} lines, {differing} differed, seeds {first} to {}",
        lines.into_inner(),
        (first + count).saturating_sub(1)
    );
    ExitCode::from(u8::from(differing > 0))
}

/// Where the proved program's key of a script differs from the twin's, if it does.
fn difference(program: &str, script: &[u8]) -> Option<String> {
    let twins = exam::key(script).into_bytes();
    let original = match run(program, script) {
        Ok(key) => key,
        Err(problem) => return Some(problem),
    };
    if original == twins {
        return None;
    }
    let lines: Vec<&[u8]> = script::lines(script).collect();
    let originals: Vec<&[u8]> = original.split_inclusive(|byte| *byte == b'\n').collect();
    let twins: Vec<&[u8]> = twins.split_inclusive(|byte| *byte == b'\n').collect();
    let at = (0..).find(|at| originals.get(*at) != twins.get(*at)).expect("the keys differ");
    let show = |line: Option<&&[u8]>| match line {
        Some(line) => format!("\"{}\"", line.escape_ascii()),
        None => "nothing".to_string(),
    };
    Some(format!(
        "line {} of {} is {}: original {}, twin {}",
        at + 1,
        lines.len(),
        show(lines.get(at)),
        show(originals.get(at)),
        show(twins.get(at))
    ))
}

/// What the proved program prints for a script.
fn run(program: &str, script: &[u8]) -> Result<Vec<u8>, String> {
    let mut child = Command::new(program)
        .stdin(Stdio::piped())
        .stdout(Stdio::piped())
        .stderr(Stdio::piped())
        .spawn()
        .map_err(|error| format!("{program} does not start: {error}"))?;
    let mut input = child.stdin.take().expect("the input is a pipe");
    let output = std::thread::scope(|scope| {
        // A program may end before it has read an input that is too long, so a failed write does not matter.
        scope.spawn(move || input.write_all(script));
        child.wait_with_output()
    })
    .map_err(|error| format!("{program} cannot be waited for: {error}"))?;
    if !output.status.success() || !output.stderr.is_empty() {
        return Err(format!("{}, and \"{}\"", output.status, output.stderr.escape_ascii()));
    }
    Ok(output.stdout)
}

/// The script of a seed.
fn generate(seed: u64) -> Vec<u8> {
    let mut rng = Rng::new(seed);
    let (style, lines) = match rng.below(1000) {
        0..=299 => (LIVELY, rng.between(10, 150)),
        300..=449 => (CUTS, rng.between(3, 120)),
        450..=599 => (FULL, rng.between(70, 170)),
        600..=699 => (BOUNDARY, rng.between(5, 100)),
        700..=849 => (MALFORMED, rng.between(3, 150)),
        850..=899 => (NOISE, rng.between(1, 40)),
        900..=979 => (LIVELY, rng.between(0, 5)),
        _ => (LONG, u64::MAX),
    };
    let high = rng.chance(15);
    let (script, needs) = (Vec::new(), BTreeMap::new());
    let mut writer = Writer { rng, exam: Exam::new(), script, entries: 0, high, down: false, needs };
    if lines == u64::MAX {
        writer.write_long();
    } else {
        for _ in 0..lines {
            writer.write_line(&style);
        }
        if writer.rng.chance(20) {
            writer.script.pop();
        }
    }
    writer.exam.finish();
    writer.script
}

/// How often each sort of line is written.
struct Style {
    stock: u64,
    enter: u64,
    step: u64,
    question: u64,
    cut: u64,
    ceiling: u64,
    boundary: u64,
    malformed: u64,
    noise: u64,
}

const LIVELY: Style =
    Style { stock: 15, enter: 17, step: 42, question: 14, cut: 6, ceiling: 1, boundary: 3, malformed: 2, noise: 0 };
const CUTS: Style =
    Style { stock: 18, enter: 12, step: 20, question: 10, cut: 38, ceiling: 1, boundary: 1, malformed: 0, noise: 0 };
const FULL: Style =
    Style { stock: 44, enter: 18, step: 30, question: 3, cut: 4, ceiling: 1, boundary: 0, malformed: 0, noise: 0 };
const BOUNDARY: Style =
    Style { stock: 8, enter: 5, step: 5, question: 6, cut: 3, ceiling: 20, boundary: 50, malformed: 3, noise: 0 };
const MALFORMED: Style =
    Style { stock: 8, enter: 8, step: 14, question: 6, cut: 3, ceiling: 1, boundary: 5, malformed: 45, noise: 10 };
const NOISE: Style =
    Style { stock: 3, enter: 0, step: 3, question: 3, cut: 3, ceiling: 0, boundary: 0, malformed: 8, noise: 80 };
const LONG: Style =
    Style { stock: 10, enter: 10, step: 20, question: 40, cut: 3, ceiling: 1, boundary: 5, malformed: 8, noise: 3 };

/// Numbers at which something changes, small ones, and some that are too wide for every field.
const BOUNDARIES: [&str; 32] = [
    "0",
    "1",
    "2",
    "14",
    "15",
    "16",
    "17",
    "62",
    "63",
    "64",
    "65",
    "126",
    "127",
    "128",
    "129",
    "255",
    "256",
    "32767",
    "65534",
    "65535",
    "65536",
    "65537",
    "4294967295",
    "4294967296",
    "999999999999",
    "1000000000000",
    "1000000000001",
    "9223372036854775808",
    "18446744073709551615",
    "18446744073709551616",
    "18446744073709551625",
    "100000000000000000000",
];

/// A script in the making. The twin's examination of it so far tells what to write next.
struct Writer {
    rng: Rng,
    exam: Exam,
    script: Vec<u8>,
    /// The number of standing entries, as last known.
    entries: u32,
    /// Whether to use the highest accounts, items and trades, instead of the lowest.
    high: bool,
    /// Whether the last instruction was answered 42, or cut.
    down: bool,
    /// The credits that the trades written so far need.
    needs: BTreeMap<u32, [String; 2]>,
}

impl Writer {
    fn push(&mut self, line: &[u8]) {
        for part in line.split(|byte| *byte == b'\n') {
            match self.exam.answer(part).as_str() {
                "13" | "42" => self.down = true,
                answer if answer.contains(' ') && part.starts_with(b"C") => self.down = false,
                _ => {}
            }
        }
        self.entries = self.exam.engine().entries().unwrap_or(self.entries);
        self.script.extend(line);
        self.script.push(b'\n');
    }

    fn write_line(&mut self, style: &Style) {
        let line = self.line(style);
        self.push(&line);
    }

    /// A script just below, at, or above the largest size.
    fn write_long(&mut self) {
        let target = match self.rng.below(8) {
            0 => 65_535,
            1..=3 => 65_536,
            4 => 65_537,
            5 => 65_538,
            6 => self.rng.between(65_500, 65_600) as usize,
            _ => self.rng.between(65_537, 150_000) as usize,
        };
        let lines = self.rng.between(0, 300);
        for _ in 0..lines {
            self.write_line(&LONG);
        }
        let filling = self.rng.below(4);
        while self.script.len() < target {
            match filling {
                0 => self.push(b""),
                1 => {
                    let byte = self.rng.pick(b"x09 I");
                    let length = target - self.script.len() - 1;
                    self.push(&vec![byte; length]);
                }
                2 => self.write_line(&LONG),
                _ => {
                    let mut line = self.line(&LONG);
                    line.resize(line.len().max(200), b'1');
                    self.push(&line);
                }
            }
        }
        self.script.truncate(target);
    }

    fn line(&mut self, style: &Style) -> Vec<u8> {
        // While every answer is 41 or 42, only a cut changes anything.
        let stuck = self.exam.engine().opening().is_err() || self.down;
        if stuck && style.cut > 0 && self.rng.chance(30) {
            return self.cut();
        }
        let Style { stock, enter, step, question, cut, ceiling, boundary, malformed, noise } = *style;
        match self.rng.weighted(&[stock, enter, step, question, cut, ceiling, boundary, malformed, noise]) {
            0 => self.stock(),
            1 => self.enter(),
            2 => self.step(),
            3 => self.question(),
            4 => self.cut(),
            5 => self.ceiling(),
            6 => self.boundary(),
            7 => self.malformed(),
            _ => self.noise(),
        }
    }

    /// Mostly one of a few numbers; sometimes any number below the limit, or the limit itself.
    fn among(&mut self, few: u64, limit: u64) -> u64 {
        let number = match self.rng.below(60) {
            0 => return limit,
            1 | 2 => self.rng.below(limit),
            3..=5 => self.rng.below(6),
            _ => self.rng.below(few),
        };
        if self.high {
            limit - 1 - number
        } else {
            number
        }
    }

    fn account(&mut self) -> u64 {
        self.among(3, 64)
    }

    fn item(&mut self) -> u64 {
        let few = if self.rng.chance(70) { 1 } else { 3 };
        self.among(few, 16)
    }

    fn quantity(&mut self) -> u64 {
        match self.rng.below(50) {
            0 => 0,
            1 => self.rng.next() >> self.rng.below(64),
            2..=5 => self.rng.between(1, 1000),
            _ => self.rng.between(1, 30),
        }
    }

    fn stock(&mut self) -> Vec<u8> {
        use TradeState::*;
        let trade = self.trade(&[Entered, Earmarked]);
        if self.rng.chance(60) {
            let side = usize::from(self.exam.engine().trade_state(trade) == Ok(Earmarked));
            if let Some(needs) = self.needs.get(&trade) {
                return needs[side].clone().into_bytes();
            }
        }
        let letter = self.rng.pick(&["I", "D"]);
        let (account, item) = (self.account(), self.item());
        let quantity = if self.rng.chance(80) { self.rng.between(20, 500) } else { self.quantity() };
        format!("{letter} {account} {item} {quantity}").into_bytes()
    }

    fn enter(&mut self) -> Vec<u8> {
        let seller = self.account();
        let mut buyer = self.account();
        if buyer == seller && self.rng.chance(90) {
            buyer = seller ^ 1;
        }
        let (item, currency) = (self.item(), self.item());
        let trade = self.trade(&[TradeState::NeverEntered]);
        let (quantity, amount) = (self.quantity(), self.quantity());
        if self.exam.engine().trade_state(trade) == Ok(TradeState::NeverEntered) {
            let needs = [format!("I {seller} {item} {quantity}"), format!("D {buyer} {currency} {amount}")];
            self.needs.insert(trade, needs);
        }
        format!("T {seller} {buyer} {item} {currency} {trade} {quantity} {amount}").into_bytes()
    }

    /// A trade in one of these states, if there is one; sometimes another.
    fn trade(&mut self, states: &[TradeState]) -> u32 {
        if self.rng.chance(90) {
            let engine = self.exam.engine();
            let fitting: Vec<u32> = (0..128)
                .map(|trade| if self.high { 127 - trade } else { trade })
                .filter(|trade| engine.trade_state(*trade).is_ok_and(|state| states.contains(&state)))
                .take(8)
                .collect();
            if !fitting.is_empty() {
                return self.rng.pick(&fitting);
            }
        }
        if self.rng.chance(80) {
            return self.rng.below(8) as u32;
        }
        self.rng.below(130) as u32
    }

    fn step(&mut self) -> Vec<u8> {
        use TradeState::*;
        let state = self.rng.pick(&[Entered, Earmarked, Funded]);
        let from = if self.rng.chance(60) { &[state][..] } else { &[Entered, Earmarked, Funded] };
        let trade = self.trade(from);
        let mut letter = match self.exam.engine().trade_state(trade) {
            Ok(Entered) => "E",
            Ok(Earmarked) => "L",
            Ok(Funded) => "S",
            _ if self.rng.chance(60) => return self.enter(),
            _ => "F",
        };
        if self.rng.chance(10) {
            letter = "F";
        }
        if self.rng.chance(15) {
            letter = self.rng.pick(&["E", "L", "S", "F"]);
        }
        format!("{letter} {trade}").into_bytes()
    }

    fn question(&mut self) -> Vec<u8> {
        let letter = self.rng.pick(&["Q", "K"]);
        format!("{letter} {} {}", self.account(), self.item()).into_bytes()
    }

    fn cut(&mut self) -> Vec<u8> {
        // The calls of an opening that finds all standing entries.
        let opening = match self.entries {
            63 => 127,
            entries => 2 + 2 * u64::from(entries),
        };
        let calls = match self.rng.below(20) {
            0..=4 => self.rng.below(41),
            5..=9 => opening + self.rng.below(13),
            // Enough for some instructions, and for the next one up to its last sync.
            10..=12 => opening + 4 * self.rng.below(4) + 3,
            13 | 14 => (opening + 1).saturating_sub(self.rng.below(5)),
            15..=17 => self.rng.between(128, 5000),
            18 => self.rng.next() >> self.rng.between(32, 63),
            _ => self.rng.next() >> self.rng.between(28, 34),
        };
        let mut line = format!("C {calls}");
        let remains = match self.rng.below(20) {
            0..=5 => 0,
            6..=11 => 1,
            12..=18 => self.rng.between(2, 8),
            _ => self.rng.between(8, 9),
        };
        for _ in 0..remains {
            let remain = match self.rng.below(20) {
                0..=9 => self.rng.between(1, 3),
                10..=13 => self.rng.below(6),
                14 => 255,
                15 => self.rng.between(254, 257),
                _ => self.rng.below(256),
            };
            line.push_str(&format!(" {remain}"));
        }
        line.into_bytes()
    }

    /// A credit that brings an item to just below, exactly to, or just above the ceiling.
    fn ceiling(&mut self) -> Vec<u8> {
        let securities = self.rng.chance(50);
        let item = self.rng.below(3) as u16;
        let engine = self.exam.engine();
        let total: u64 = (0..64)
            .filter_map(|account| {
                let amounts = if securities { engine.securities(account, item) } else { engine.money(account, item) };
                amounts.map(|(free, blocked)| free + blocked).ok()
            })
            .sum();
        let room = 1_000_000_000_000 - total;
        let quantity = match self.rng.below(5) {
            0 => room.saturating_sub(1),
            1 | 2 => room,
            _ => room + 1,
        };
        let letter = if securities { "I" } else { "D" };
        format!("{letter} {} {item} {quantity}", self.account()).into_bytes()
    }

    fn boundary(&mut self) -> Vec<u8> {
        let (letter, fields) = self.rng.pick(&[
            ("I", 3),
            ("D", 3),
            ("T", 7),
            ("T", 7),
            ("E", 1),
            ("L", 1),
            ("S", 1),
            ("F", 1),
            ("Q", 2),
            ("K", 2),
            ("C", 1),
            ("C", 3),
        ]);
        // Mostly small numbers, so that a boundary in one field is not hidden by one in an earlier field.
        let one = self.rng.below(fields);
        let more = self.rng.chance(30);
        let mut line = letter.to_string();
        for field in 0..fields {
            line.push(' ');
            if field == one || (more && self.rng.chance(40)) {
                line.push_str(self.rng.pick(&BOUNDARIES));
            } else {
                line.push_str(&self.rng.between(u64::from(field + 2 >= fields), 4).to_string());
            }
        }
        line.into_bytes()
    }

    /// A line of a listed form, mostly with something wrong.
    fn malformed(&mut self) -> Vec<u8> {
        let mut line = match self.rng.below(6) {
            0 => self.stock(),
            1 => self.enter(),
            2 => self.step(),
            3 => self.question(),
            4 => self.cut(),
            _ => self.boundary(),
        };
        let changes = if self.rng.chance(80) { 1 } else { 2 };
        for _ in 0..changes {
            self.spoil(&mut line);
        }
        line
    }

    fn spoil(&mut self, line: &mut Vec<u8>) {
        let place = self.rng.below(line.len() as u64 + 1) as usize;
        let byte = self.rng.next() as u8;
        match self.rng.below(24) {
            0 => line.clear(),
            1 => line.push(b'\r'),
            2 => line.push(b' '),
            3 => line.insert(0, b' '),
            4 => line.insert(place, b' '),
            5 | 6 => {
                // A leading zero.
                let spaces: Vec<usize> = (0..line.len()).filter(|at| line[*at] == b' ').collect();
                if !spaces.is_empty() {
                    let at = self.rng.pick(&spaces);
                    line.insert(at + 1, b'0');
                }
            }
            7 => line.make_ascii_lowercase(),
            8 => {
                if let Some(letter) = line.first_mut() {
                    *letter = byte;
                }
            }
            9 => {
                if let Some(letter) = line.first_mut() {
                    *letter = self.rng.between(u64::from(b'A'), u64::from(b'Z')) as u8;
                }
            }
            10 => line.insert(place, self.rng.pick(b"\t\r\0+-.,_\x0b\x7f")),
            11 => line.insert(place, byte | 128),
            12 => {
                if place < line.len() {
                    line[place] = byte;
                }
            }
            13 => {
                if place < line.len() {
                    line.remove(place);
                }
            }
            14 => line.truncate(place),
            15 => {
                // One field too few.
                let end = line.iter().rposition(|byte| *byte == b' ').unwrap_or(0);
                line.truncate(end);
            }
            16 => line.extend(format!(" {}", self.rng.below(10)).bytes()),
            17 => {
                // More digits.
                let digits = self.rng.between(1, 25);
                for _ in 0..digits {
                    line.push(self.rng.between(u64::from(b'0'), u64::from(b'9')) as u8);
                }
            }
            18 => {
                // The last field is a boundary.
                let end = line.iter().rposition(|byte| *byte == b' ').map_or(0, |at| at + 1);
                line.truncate(end);
                line.extend(self.rng.pick(&BOUNDARIES).bytes());
            }
            19 => {
                // Another letter of the list, mostly with the wrong number of fields for it.
                if let Some(letter) = line.first_mut() {
                    *letter = self.rng.pick(b"IDTELSFQKC");
                }
            }
            20 => *line = b"C 60 1 1 1 1 1 1 1 1 1".to_vec(),
            21 => *line = b"C 60 1 1 1 1 1 1 1 1".to_vec(),
            22 => {
                if let Some(space) = line.iter().position(|byte| *byte == b' ') {
                    line[space] = self.rng.pick(b"\t,\0\xA0");
                }
            }
            _ => line.insert(place, byte),
        }
    }

    fn noise(&mut self) -> Vec<u8> {
        let length = self.rng.below(24);
        let any = self.rng.chance(30);
        (0..length)
            .map(|at| match (any, at) {
                (true, _) => self.rng.next() as u8,
                (_, 0) => self.rng.pick(b"IDTELSFQKCc"),
                (_, 1) => self.rng.pick(b"      1"),
                _ => self.rng.pick(b"0123456789      "),
            })
            .collect()
    }
}
