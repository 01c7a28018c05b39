//! A twin of `deadend`: reads a sheet from standard input, carries it out and prints its lines.
//! Written from the documentation under `docs/` alone.

mod book;
mod desk;
mod detectors;
mod learning;
mod lines;
mod model;
mod refusal;
mod rules;
mod settle;
mod sheet;
#[cfg(test)]
mod tests;
mod walk;

use std::io::{self, BufWriter, Read, Write};
use std::process::ExitCode;

/// Reads at most one byte more than a sheet may have, and carries out what was read.
fn run() -> io::Result<()> {
    let mut sheet = Vec::new();
    io::stdin().lock().take(sheet::SHEET_BYTES as u64 + 1).read_to_end(&mut sheet)?;
    let mut out = BufWriter::new(io::stdout().lock());
    desk::carry_out(&sheet, &mut out)?;
    out.flush()
}

fn main() -> ExitCode {
    match run() {
        Ok(()) => ExitCode::SUCCESS,
        Err(error) => {
            eprintln!("twin: {error}");
            ExitCode::FAILURE
        }
    }
}
