//! Compares the proved engine, as a static library, with the twin on random lists of calls over random images.
//!
//! `devices COUNT FIRST_SEED [THREADS]` compares on the lists of COUNT seeds in a row: every answer, the bytes that were read,
//! and every byte of the image at the end. It exits with 1 if anything differs. `devices --answers COUNT FIRST_SEED` prints how
//! often each call is answered each number.

use std::collections::BTreeMap;
use std::process::ExitCode;
use std::sync::Mutex;

use library::lists::{List, Maker};
use library::rows::Answer;
use library::{original, twins};
use twin::rng::each_seed;

fn main() -> ExitCode {
    let arguments: Vec<String> = std::env::args().skip(1).collect();
    let arguments: Vec<&str> = arguments.iter().map(String::as_str).collect();
    match arguments[..] {
        ["--answers", count, first] => count_answers(number(count), number(first)),
        [count, first] => compare(number(count), number(first), 2),
        [count, first, threads] => compare(number(count), number(first), number(threads)),
        _ => {
            eprintln!("usage: devices COUNT FIRST_SEED [THREADS]");
            eprintln!("       devices --answers COUNT FIRST_SEED");
            ExitCode::from(2)
        }
    }
}

fn number(text: &str) -> u64 {
    text.parse().unwrap_or_else(|_| panic!("{text} is no number"))
}

/// The outcome of the lists of a seed.
#[derive(Default)]
struct Outcome {
    lists: u64,
    calls: u64,
    bytes: u64,
    differing: u64,
    differences: Vec<String>,
}

impl Outcome {
    fn add(&mut self, other: Outcome) {
        self.lists += other.lists;
        self.calls += other.calls;
        self.bytes += other.bytes;
        self.differing += other.differing;
    }
}

fn compare(count: u64, first: u64, threads: u64) -> ExitCode {
    let all = Mutex::new(Outcome::default());
    each_seed(count, first, threads, |seed| {
        let panics = || Outcome { differing: 1, differences: vec!["a panic".to_string()], ..Outcome::default() };
        let outcome = std::panic::catch_unwind(|| compare_seed(seed, |_, _| ())).unwrap_or_else(|_| panics());
        for difference in &outcome.differences {
            println!("seed {seed}, {difference}");
        }
        all.lock().expect("no thread panics").add(outcome);
    });
    let all = all.into_inner().expect("no thread panics");
    println!(
        "{} lists, {} calls, {} image bytes, {} differed, seeds {first} to {}",
        all.lists,
        all.calls,
        all.bytes,
        all.differing,
        (first + count).saturating_sub(1)
    );
    ExitCode::from(u8::from(all.differing > 0))
}

fn count_answers(count: u64, first: u64) -> ExitCode {
    let mut answers: BTreeMap<(u8, u8), u64> = BTreeMap::new();
    for seed in first..first + count {
        compare_seed(seed, |list, given| {
            for (call, answer) in list.calls.iter().zip(given) {
                *answers.entry((call.action, answer.number)).or_insert(0) += 1;
            }
        });
    }
    for ((action, number), times) in answers {
        println!("{action:3} {number:3} {times}");
    }
    ExitCode::SUCCESS
}

/// Carries out the lists of a seed, each on the image that the one before left, damaged in places.
fn compare_seed(seed: u64, mut see: impl FnMut(&List, &[Answer])) -> Outcome {
    let mut maker = Maker::new(seed);
    let mut image = maker.image();
    let mut outcome = Outcome::default();
    for place in 1..=maker.lists() {
        let list = maker.list(&image);
        let (mut originals, mut twins) = (Side::new(&image, &list), Side::new(&image, &list));
        originals.answers = original::run(&list.setup, &mut originals.image, &mut originals.data, &list.calls);
        twins.answers = twins::run(&list.setup, &mut twins.image, &mut twins.data, &list.calls);
        see(&list, &twins.answers);
        outcome.lists += 1;
        outcome.calls += list.calls.len() as u64;
        outcome.bytes += image.len() as u64;
        if let Some(difference) = difference(&list, &originals, &twins) {
            outcome.differing += 1;
            outcome.differences.push(format!("list {place}: {difference}"));
        }
        image = if maker.from_original() { originals.image } else { twins.image };
        maker.damage(&mut image);
    }
    outcome
}

/// The outcome of a list on one side.
struct Side {
    image: Vec<u8>,
    data: Vec<u8>,
    answers: Vec<Answer>,
}

impl Side {
    fn new(image: &[u8], list: &List) -> Side {
        Side { image: image.to_vec(), data: list.data.clone(), answers: Vec::new() }
    }
}

fn difference(list: &List, original: &Side, twin: &Side) -> Option<String> {
    if let Some(at) = (0..list.calls.len()).find(|at| original.answers[*at] != twin.answers[*at]) {
        let (action, of) = (list.calls[at].action, list.calls.len());
        let (originals, twins) = (original.answers[at], twin.answers[at]);
        return Some(format!("call {} of {of}, action {action}: original {originals}; twin {twins}", at + 1));
    }
    byte_difference("data", &original.data, &twin.data)
        .or_else(|| byte_difference("image", &original.image, &twin.image))
}

fn byte_difference(what: &str, original: &[u8], twin: &[u8]) -> Option<String> {
    let at = (0..original.len()).find(|at| original[*at] != twin[*at])?;
    Some(format!("byte {at} of the {what}: original {}, twin {}", original[at], twin[at]))
}
