//! jobs_against COUNT SEED EVERY COMMAND..: runs a job program (perhaps through an emulator) on the two small jobs with
//! all their variants, or every EVERY-th of these, on the longest file, and on COUNT generated jobs; its standard output
//! has to be the second program's, byte for byte, and its exit status 0. Ends in 'N passed, M failed'.

use second::harness::Tally;
use second::jobs::chance::Chance;
use second::jobs::{job, systematic, valid};
use second::words::to_bytes;
use std::io::{self, Write};
use std::process::{Command, ExitCode, Stdio};
use std::sync::Mutex;
use std::thread;

fn main() -> ExitCode {
    let words: Vec<String> = std::env::args().skip(1).collect();
    if let [count, seed, every, command @ ..] = &words[..] {
        if let (Ok(count), Ok(seed), Ok(every @ 1..), false) =
            (count.parse(), seed.parse(), every.parse(), command.is_empty())
        {
            return compare_all(command, all_runs(count, seed, every));
        }
    }
    eprintln!("usage: jobs_against COUNT SEED EVERY COMMAND..");
    ExitCode::from(2)
}

struct Run {
    name: String,
    bytes: Vec<u8>,
    /// A pipe hands over what is there: small pieces try a reader that trusts one read.
    piece: usize,
}

fn all_runs(count: u64, seed: u64, every: usize) -> impl Iterator<Item = Run> + Send {
    const WHOLE: usize = 1 << 20;
    let small = systematic::jobs().into_iter().enumerate().step_by(every);
    let small = small.map(|(index, bytes)| Run { name: format!("small job {index}"), bytes, piece: WHOLE });
    let longest = to_bytes(&valid::full(&mut Chance::new(seed, 0)).job_words());
    let longest = Run { name: "longest file".to_string(), bytes: longest, piece: WHOLE };
    let generated = (0..count).map(move |index| Run {
        name: format!("generated_job {seed} {index}"),
        bytes: job(seed, index),
        piece: Chance::new(!seed, index).pick(&[WHOLE, 4096, 1000, 7]),
    });
    small.chain([longest]).chain(generated)
}

/// As many runs at a time as there are processors: an emulator takes long to start.
fn compare_all(command: &[String], runs: impl Iterator<Item = Run> + Send) -> ExitCode {
    let (runs, tally) = (Mutex::new(runs), Mutex::new(Tally::default()));
    let next = || runs.lock().expect("no holder panics").next();
    let work = || {
        while let Some(run) = next() {
            let result = compare(command, &run);
            tally.lock().expect("no holder panics").add(&run.name, result);
        }
    };
    let processors = thread::available_parallelism().map_or(1, |count| count.get());
    thread::scope(|scope| (0..processors).for_each(|_| drop(scope.spawn(work))));
    tally.into_inner().expect("no holder panics").close()
}

fn compare(command: &[String], run: &Run) -> Result<(), String> {
    let expected = second::job::run(&run.bytes);
    match output_of(command, run) {
        Err(error) => Err(format!("{}: {error}", command.join(" "))),
        Ok(output) if output == expected.as_bytes() => Ok(()),
        Ok(output) => Err(format!("wrote {:?}, expected {expected:?}", String::from_utf8_lossy(&output))),
    }
}

/// What the program writes for these bytes. It writes less than a pipe holds, so it never waits for us.
fn output_of(command: &[String], run: &Run) -> io::Result<Vec<u8>> {
    let (program, words) = command.split_first().expect("not empty");
    let mut child = Command::new(program).args(words).stdin(Stdio::piped()).stdout(Stdio::piped()).spawn()?;
    let mut stdin = child.stdin.take().expect("piped");
    for part in run.bytes.chunks(run.piece) {
        match stdin.write_all(part) {
            // Over-long input may be given up before its end.
            Err(error) if error.kind() == io::ErrorKind::BrokenPipe => break,
            other => other?,
        }
    }
    drop(stdin);
    let output = child.wait_with_output()?;
    if output.status.success() {
        Ok(output.stdout)
    } else {
        Err(io::Error::new(io::ErrorKind::Other, output.status.to_string()))
    }
}
