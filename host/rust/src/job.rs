//! RULES 7: a job's bytes and what the program writes for them.

use crate::assignment;
use crate::calls::{field_words, off_the_rows, rows_hold};
use crate::circuit::Circuit;
use crate::qap::{self, Qap};
use crate::refusal::{need, number_and_place, Verdict};
use crate::words;

/// 3 + 3 · (1 + 3 · 1,024) circuit words, 256 + 2 assignment words and 6 more.
pub const MOST_BYTES: usize = 37_944;

/// A job whose refusals but 8 and 10 have passed.
pub struct Job {
    pub circuit: Circuit,
    pub w: Vec<u64>,
    pub blinders: [u64; 3],
    pub point: u64,
}

pub fn well_sized(bytes: &[u8]) -> bool {
    bytes.len() <= MOST_BYTES && bytes.len() % 4 == 0
}

impl Job {
    pub fn read(bytes: &[u8]) -> Verdict<Job> {
        need(well_sized(bytes), 14, 0)?;
        let words = words::from_bytes(bytes);
        let circuit = Circuit::read_front(&words)?;
        let rest = &words[circuit.words..];
        need(rest.len() >= circuit.n + 2, 6, 0)?;
        let (own, rest) = rest.split_at(circuit.n + 2);
        let w = assignment::read(&circuit, own)?;
        need(rest.len() == 6 && rest[0] == 3 && rest[4] == 1, 14, 0)?;
        let (blinders, point) = ([rest[1], rest[2], rest[3]], rest[5]);
        field_words(&blinders, 0)?;
        off_the_rows(&circuit, point)?;
        Ok(Job { circuit, w, blinders: blinders.map(u64::from), point: point.into() })
    }
}

/// All that the program writes to standard output.
pub fn run(bytes: &[u8]) -> String {
    let verdict = satisfied(bytes);
    let (number, place) = number_and_place(&verdict);
    let mut output = format!("{number} {place}\n");
    if let Ok(job) = verdict {
        let qap = Qap::new(&job.circuit);
        let answers = qap.answers(&job.w, job.blinders, job.point);
        output += &line(&qap::target(job.circuit.m));
        output += &line(&qap.quotient(&job.w, job.blinders));
        output += &line(&answers);
        let accepted = qap.accepts(&job.w[..job.circuit.q], job.point, answers);
        output += if accepted { "0\n" } else { "13\n" };
    }
    output
}

fn satisfied(bytes: &[u8]) -> Verdict<Job> {
    let job = Job::read(bytes)?;
    rows_hold(&job.circuit, &job.w)?;
    Ok(job)
}

fn line(words: &[u64]) -> String {
    let decimals: Vec<String> = words.iter().map(u64::to_string).collect();
    decimals.join(" ") + "\n"
}
