//! generated_job SEED INDEX: writes one generated job file to standard output, to look at a failing case:
//!     generated_job 1 17 | tools/words unpack

use second::jobs;
use std::io::{self, Write};
use std::process::ExitCode;

fn main() -> io::Result<ExitCode> {
    let numbers: Vec<u64> = std::env::args().skip(1).filter_map(|word| word.parse().ok()).collect();
    if let [seed, index] = numbers[..] {
        io::stdout().write_all(&jobs::job(seed, index))?;
        return Ok(ExitCode::SUCCESS);
    }
    eprintln!("usage: generated_job SEED INDEX");
    Ok(ExitCode::from(2))
}
