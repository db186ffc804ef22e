//! differential COUNT SEED COMMAND..: the archive's two exported functions, served by the command (host/c/serve.c,
//! perhaps through an emulator), against the second program: on the two small jobs with all their variants, on the
//! longest file, and on COUNT generated cases. Ends in 'N passed, M failed'.

use second::exported::OUT_BYTES;
use second::harness::{compare, Tally};
use second::jobs::cases::{case, Case};
use second::jobs::chance::Chance;
use second::jobs::{systematic, valid};
use second::served::Served;
use second::words::to_bytes;
use std::process::ExitCode;
use std::time::Duration;

/// A call takes milliseconds, also where it is emulated.
const LIMIT: Duration = Duration::from_secs(60);

fn main() -> ExitCode {
    let words: Vec<String> = std::env::args().skip(1).collect();
    if let [count, seed, command @ ..] = &words[..] {
        if let (Ok(count), Ok(seed), false) = (count.parse(), seed.parse(), command.is_empty()) {
            return compare_all(command, count, seed);
        }
    }
    eprintln!("usage: differential COUNT SEED COMMAND..");
    ExitCode::from(2)
}

fn compare_all(command: &[String], count: u64, seed: u64) -> ExitCode {
    let mut tally = Tally::default();
    match Served::start(command, LIMIT) {
        Ok(mut served) => {
            for (name, case) in all_cases(count, seed) {
                tally.add(&name, compare(&mut served, &case));
                if served.is_gone() {
                    break;
                }
            }
            tally.add("the end", served.close());
        }
        Err(error) => tally.add(&command.join(" "), Err(error.to_string())),
    }
    tally.close()
}

fn all_cases(count: u64, seed: u64) -> impl Iterator<Item = (String, Case)> {
    let small = systematic::cases().into_iter().enumerate();
    let small = small.map(|(index, case)| (format!("small case {index}"), case));
    let longest = to_bytes(&valid::full(&mut Chance::new(seed, 0)).job_words());
    let longest = Case::Answers { job: longest, out_len: OUT_BYTES };
    let generated = (0..count).map(move |index| (format!("case {seed} {index}"), case(seed, index)));
    small.chain([("longest file".to_string(), longest)]).chain(generated)
}
