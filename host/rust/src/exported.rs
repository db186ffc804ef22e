//! The rules' two exported functions, as safe functions on byte slices.

use crate::calls::{answer_check, rows_hold};
use crate::job::{well_sized, Job};
use crate::qap::Qap;
use crate::refusal::{integer, need, Verdict};
use crate::words;

pub const OUT_BYTES: usize = 16;
const QUERY_BYTES: usize = 20;

/// The four answers of a job as 16 bytes: refused as the program does, with 8 between 11 and 10.
pub fn answers(job: &[u8], out: &mut [u8]) -> u64 {
    integer(&write_answers(job, out))
}

fn write_answers(job: &[u8], out: &mut [u8]) -> Verdict {
    let job = Job::read(job)?;
    need(out.len() == OUT_BYTES, 8, OUT_BYTES)?;
    rows_hold(&job.circuit, &job.w)?;
    let answers = Qap::new(&job.circuit).answers(&job.w, job.blinders, job.point);
    out.copy_from_slice(&words::to_bytes(&answers.map(|word| word as u32)));
    Ok(())
}

/// The answer check on bytes; the query is the point and the four answers.
pub fn check(circuit: &[u8], public: &[u8], query: &[u8]) -> u64 {
    integer(&check_bytes(circuit, public, query))
}

fn check_bytes(circuit: &[u8], public: &[u8], query: &[u8]) -> Verdict {
    need(well_sized(circuit) && well_sized(public) && query.len() == QUERY_BYTES, 14, 0)?;
    let query = words::from_bytes(query);
    let answers = [query[1], query[2], query[3], query[4]];
    answer_check(&words::from_bytes(circuit), &words::from_bytes(public), query[0], answers)
}
