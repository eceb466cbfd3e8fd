//! Times two programs by turns on scripts of about 65,536 bytes: `times PROGRAM TWIN [ROUNDS]`. It prints the best round of each in
//! milliseconds, the start of the program included. Both keys must be the same bytes.

use std::io::Write;
use std::process::{Command, ExitCode, Stdio};
use std::time::{Duration, Instant};

use twin::script;

fn main() -> ExitCode {
    let arguments: Vec<String> = std::env::args().skip(1).collect();
    let (programs, rounds) = match &arguments[..] {
        [program, twin] => ([program, twin], 20),
        [program, twin, rounds] => ([program, twin], rounds.parse().expect("a number of rounds")),
        _ => {
            eprintln!("usage: times PROGRAM TWIN [ROUNDS]");
            return ExitCode::from(2);
        }
    };
    println!("{:54} {:>9} {:>9} {:>6}", "", "proved", "twin", "ratio");
    for (name, script) in scripts() {
        let mut best = [Duration::MAX; 2];
        for _ in 0..rounds {
            let keys = [0, 1].map(|side| {
                let (time, key) = run(programs[side], &script);
                best[side] = best[side].min(time);
                key
            });
            assert_eq!(keys[0], keys[1], "two keys for one script");
        }
        let [proved, twin] = best.map(|time| time.as_secs_f64() * 1000.0);
        let count = script::lines(&script).count();
        println!("{:54} {proved:9.2} {twin:9.2} {:6.2}", format!("{count} lines: {name}"), proved / twin);
    }
    ExitCode::SUCCESS
}

/// Scripts of the kinds of line whose costs differ most.
fn scripts() -> [(&'static str, Vec<u8>); 5] {
    let issue = |n: usize| format!("I {} {} {}\n", n % 64, n % 16, n % 9 + 1);
    let day = |n: usize| match n {
        0..20 => format!("I {} 0 1000\n", n % 10),
        20..40 => format!("D {} 0 1000\n", n % 10 + 10),
        40..50 => format!("T {} {} 0 0 {} 5 7\n", n - 40, n - 30, n - 40),
        50..60 => format!("E {}\n", n - 50),
        _ => match n % 4 {
            0 => format!("Q {} 0\n", n % 64),
            1 => format!("K {} 0\n", n % 64),
            2 => format!("L {}\n", n % 128),
            _ => format!("T {} {} 3 4 {} 123456 78901234\n", n % 70, n % 66, n % 140),
        },
    };
    [
        ("Issues, refused once the journal is full", filled(issue)),
        ("questions", filled(|n| format!("Q {} {}\n", n % 64, n % 16))),
        ("Earmarks of trades never entered", filled(|n| format!("E {}\n", n % 128))),
        ("trades, questions, refusals", filled(day)),
        ("62 Issues, then cuts", filled(|n| if n < 62 { issue(n) } else { "C 999999\n".to_string() })),
    ]
}

/// As many lines as fit into a script.
fn filled(line: impl Fn(usize) -> String) -> Vec<u8> {
    let mut script = Vec::new();
    for n in 0.. {
        let line = line(n);
        if script.len() + line.len() > script::MOST_BYTES {
            break;
        }
        script.extend(line.bytes());
    }
    script
}

fn run(program: &str, script: &[u8]) -> (Duration, Vec<u8>) {
    let began = Instant::now();
    let mut child = Command::new(program)
        .stdin(Stdio::piped())
        .stdout(Stdio::piped())
        .spawn()
        .unwrap_or_else(|error| panic!("{program} does not start: {error}"));
    // Both programs read their whole input before they print, so nothing waits for the other here.
    let mut input = child.stdin.take().expect("standard input is a pipe");
    input.write_all(script).expect("the program reads its input");
    drop(input);
    let output = child.wait_with_output().expect("the program ends");
    let time = began.elapsed();
    assert!(output.status.success(), "{program} fails");
    (time, output.stdout)
}
