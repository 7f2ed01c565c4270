//! Turns records in words, from standard input, into a record file on standard output.
//!
//! The words need not make a file that is accepted: refused ones are worth writing too.

use std::io::{Read, Write};
use std::process::ExitCode;

fn main() -> ExitCode {
    let mut text = String::new();
    if let Err(error) = std::io::stdin().read_to_string(&mut text) {
        eprintln!("text-to-records: {error}");
        return ExitCode::FAILURE;
    }
    let written = judge::words::read(&text)
        .and_then(|graph| std::io::stdout().write_all(&graph.bytes()).map_err(|e| e.to_string()));
    match written {
        Ok(()) => ExitCode::SUCCESS,
        Err(error) => {
            eprintln!("text-to-records: {error}");
            ExitCode::FAILURE
        }
    }
}
