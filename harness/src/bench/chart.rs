//! Charts as SVG, drawn here so that nothing has to be installed for them.

pub mod bars;
pub mod lines;
mod scale;
mod svg;

use std::fs;
use std::process::ExitCode;

/// Writes a picture to a file, where one is named.
pub fn save(file: Option<&str>, draw: impl Fn() -> String) -> ExitCode {
    match file.map(|file| (file, fs::write(file, draw()))) {
        Some((file, Err(error))) => {
            eprintln!("harness: {file}: {error}");
            ExitCode::FAILURE
        }
        _ => ExitCode::SUCCESS,
    }
}
