//! Reads a script from standard input to its end and prints its key.

use std::io::{self, Read, Write};
use std::process::ExitCode;

fn main() -> ExitCode {
    match examine() {
        Ok(()) => ExitCode::SUCCESS,
        Err(_) => ExitCode::FAILURE,
    }
}

fn examine() -> io::Result<()> {
    let mut script = Vec::new();
    io::stdin().lock().read_to_end(&mut script)?;
    let mut output = io::stdout().lock();
    output.write_all(twin::exam::key(&script).as_bytes())?;
    output.flush()
}
