//! Holds the expected output of `crates/check_cases` against the twin.
//!
//! `cases FILE` cuts FILE into blocks, each below a heading that ends in who worked it out. A block "(by the twin)" has
//! to be what the twin says; a block "(by hand)" has to be that too, where the twin has it. The scripts are those of
//! the program, taken from its tables; the answers are the twin's own. Any difference ends it with status 1.

use std::collections::HashMap;
use std::process::ExitCode;
use std::{env, fs};

use twin::book::{Balances, Book, Lots};
use twin::exam::key;
use twin::fault::Refusal;

#[path = "../../../../crates/check_cases/src/tables.rt"]
mod tables;

const BY_TWIN: &str = " (by the twin)";
const BY_HAND: &str = " (by hand)";

fn main() -> ExitCode {
    let Some(path) = env::args().nth(1) else {
        eprintln!("usage: cases FILE");
        return ExitCode::FAILURE;
    };
    let file = match fs::read_to_string(&path) {
        Ok(file) => file,
        Err(error) => {
            eprintln!("{path}: {error}");
            return ExitCode::FAILURE;
        }
    };
    let twin = blocks();
    let (mut by_twin, mut by_hand, mut seen, mut differ) = (0, 0, 0, 0);
    for (heading, body) in split(&file) {
        let by_hand_alone = heading.ends_with(BY_HAND);
        let name = heading.trim_end_matches(BY_TWIN).trim_end_matches(BY_HAND);
        *(if by_hand_alone { &mut by_hand } else { &mut by_twin }) += 1;
        match twin.get(name) {
            Some(own) if *own == body => seen += usize::from(by_hand_alone),
            None if by_hand_alone => {}
            _ => {
                println!("{heading}: the twin says\n{}", twin.get(name).map_or("nothing", String::as_str));
                differ += 1;
            }
        }
    }
    println!("{by_twin} blocks by the twin, {by_hand} by hand of which the twin has {seen}, {differ} differ");
    if by_twin == 0 || differ > 0 {
        return ExitCode::FAILURE;
    }
    ExitCode::SUCCESS
}

/// The headings of a file, each with the lines below it.
fn split(file: &str) -> Vec<(&str, String)> {
    let mut blocks: Vec<(&str, String)> = Vec::new();
    for line in file.lines() {
        if line.ends_with(BY_TWIN) || line.ends_with(BY_HAND) {
            blocks.push((line, String::new()));
        } else if let Some((_, body)) = blocks.last_mut() {
            body.push_str(line);
            body.push('\n');
        }
    }
    blocks
}

/// What the twin says, by the headings' text.
fn blocks() -> HashMap<String, String> {
    let mut blocks = HashMap::new();
    book(&mut blocks, "balances", &mut Balances::new());
    book(&mut blocks, "lots", &mut Lots::new());
    for (name, script) in [&tables::SHAPES[..], &tables::EDGES, &tables::CUTS].concat() {
        blocks.insert(name.to_string(), key(script));
    }
    for calls in 4..8 {
        for remains in tables::REMAINS {
            let script =
                format!("I 1 0 100\nC {calls}\nI 2 0 50\nC 100 {remains}\nQ 2 0\nI 2 0 50\nC 100\nQ 2 0\n");
            blocks.insert(format!("{calls} calls, then remains {remains}"), key(script.as_bytes()));
        }
    }
    for calls in [126, 127] {
        let script = "I 0 0 1\n".repeat(64) + &format!("I 0 16 1\nC {calls}\nI 0 16 1\nI 0 0 1\nQ 0 0\n");
        blocks.insert(format!("a full journal, then {calls} calls"), key(script.as_bytes()));
    }
    blocks.insert("1000000 line feeds".to_string(), key(&[b'\n'; 1_000_000]));
    blocks
}

/// The changes and questions of a book.
fn book(blocks: &mut HashMap<String, String>, name: &str, book: &mut impl Book) {
    let (kind, items, ceiling) = (book.kind(), book.items(), book.ceiling());
    let mut text = String::new();
    for item in [0, items - 1, items, 65_535] {
        changes(&mut text, book, item);
    }
    book.clear();
    text.push_str("  cleared\n");
    ask(&mut text, book, 0, 0);
    blocks.insert(format!("{name}: kind {kind}, {items} items, ceiling {ceiling}"), text);
}

fn changes(text: &mut String, book: &mut impl Book, item: u16) {
    let ceiling = book.ceiling();
    for account in tables::ACCOUNTS {
        for quantity in [0, u64::MAX, ceiling + 1, ceiling, 1] {
            let credit = number(book.credit(account, item, quantity));
            let block = number(book.block(account, item, quantity));
            let release = number(book.release(account, item, quantity));
            let again = number(book.block(account, item, quantity));
            text.push_str(&format!("  {account} {item} {quantity}: credit {credit} block {block} "));
            text.push_str(&format!("release {release} block {again}\n"));
            ask(text, book, account, item);
        }
    }
    for from in tables::ACCOUNTS {
        for to in tables::ACCOUNTS {
            let none = number(book.transfer(from, to, item, 0));
            let one = number(book.transfer(from, to, item, 1));
            let most = number(book.transfer(from, to, item, u64::MAX));
            text.push_str(&format!("  {from} to {to} of {item}: 0 {none} 1 {one} most {most}\n"));
            ask(text, book, to, item);
        }
    }
}

fn ask(text: &mut String, book: &impl Book, account: u16, item: u16) {
    let free = answer(book.free(account, item));
    let blocked = answer(book.blocked(account, item));
    text.push_str(&format!("  free {free} blocked {blocked}\n"));
}

fn number(answer: Result<(), Refusal>) -> u8 {
    answer.map_or_else(Refusal::number, |()| 0)
}

/// The number of a question's answer, and the amount or 0.
fn answer(answer: Result<u64, Refusal>) -> String {
    match answer {
        Ok(amount) => format!("0 {amount}"),
        Err(refusal) => format!("{} 0", refusal.number()),
    }
}
