//! Two small jobs with every word set to every edge word, and every length in bytes: nothing is left to chance.

use super::cases::Case;
use super::damage::EDGE_WORDS;
use super::printed::{Printed, J, J1};
use crate::exported::OUT_BYTES;
use crate::words::to_bytes;

const SMALL: [Printed; 2] = [J, J1];

pub fn jobs() -> Vec<Vec<u8>> {
    SMALL.iter().flat_map(|small| variants(&small.job_words())).collect()
}

pub fn cases() -> Vec<Case> {
    let mut cases = vec![];
    for job in jobs() {
        cases.push(Case::Answers { job: job.clone(), out_len: OUT_BYTES });
        cases.push(Case::Answers { job, out_len: OUT_BYTES + 1 });
    }
    for small in SMALL {
        let slices = [small.circuit, small.public(), small.query];
        let [circuit, public, query] = slices.map(to_bytes);
        for (at, words) in slices.iter().enumerate() {
            for variant in variants(words) {
                let mut three = [circuit.clone(), public.clone(), query.clone()];
                three[at] = variant;
                let [circuit, public, query] = three;
                cases.push(Case::Check { circuit, public, query });
            }
        }
    }
    cases
}

/// The words as they are, each word at each edge, each shorter length, and up to 9 bytes more.
fn variants(words: &[u32]) -> Vec<Vec<u8>> {
    let bytes = to_bytes(words);
    let mut variants = vec![bytes.clone()];
    for at in 0..words.len() {
        for edge in EDGE_WORDS {
            let mut changed = words.to_vec();
            changed[at] = edge;
            variants.push(to_bytes(&changed));
        }
    }
    variants.extend((0..bytes.len()).map(|length| bytes[..length].to_vec()));
    variants.extend((1..=9).map(|more| [&bytes[..], &vec![0; more]].concat()));
    variants
}
