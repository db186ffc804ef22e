//! full_job SIZE PUBLIC: writes the job file that the calls are measured on (bench/calls) to standard output: valid, as
//! many rows as columns, 32 to 256, 1,024 entries a section, and as many public columns as PUBLIC says.

use second::{jobs, words};
use std::io::{self, Write};
use std::process::ExitCode;

fn main() -> io::Result<ExitCode> {
    let numbers: Vec<usize> = std::env::args().skip(1).filter_map(|word| word.parse().ok()).collect();
    if let [size, public] = numbers[..] {
        if (32..=256).contains(&size) && (1..=size).contains(&public) {
            io::stdout().write_all(&words::to_bytes(&jobs::full_job(size, public).job_words()))?;
            return Ok(ExitCode::SUCCESS);
        }
    }
    eprintln!("usage: full_job SIZE PUBLIC");
    Ok(ExitCode::from(2))
}
