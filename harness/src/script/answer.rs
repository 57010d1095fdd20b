//! What the crate answers to the script on standard input, printed: to be held
//! beside what the program prints.

use std::io::{self, Read, Write};
use std::process::ExitCode;

use super::oracle;

pub fn run() -> ExitCode {
    match answer() {
        Ok(()) => ExitCode::SUCCESS,
        Err(error) => {
            eprintln!("harness: {error}");
            ExitCode::FAILURE
        }
    }
}

fn answer() -> io::Result<()> {
    let mut input = Vec::new();
    io::stdin().lock().read_to_end(&mut input)?;
    let output = oracle::output(&input)
        .ok_or_else(|| io::Error::other("the crate is not compiled for this script's word"))?;
    io::stdout().lock().write_all(&output)
}
