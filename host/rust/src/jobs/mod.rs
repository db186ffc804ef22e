//! Inputs to compare on: valid jobs of every size, damaged ones at every refusal's boundary, and the small
//! jobs with each word and each length tried in turn. All of it follows from a seed and an index.

pub mod calls;
pub mod cases;
pub mod chance;
pub mod damage;
pub mod printed;
pub mod sketch;
pub mod systematic;
pub mod valid;

use chance::Chance;
use damage::{damage_bytes, damage_words};

/// The job that the calls are measured on: valid and full, as many rows as columns. Only the assignment's division
/// into public and private values depends on `public`, how many of the columns are.
pub fn full_job(size: usize, public: usize) -> sketch::Sketch {
    let full = valid::full_of(&mut Chance::new(1, size as u64), size);
    sketch::Sketch { q: public as u32, point: 1_234_567_890, ..full }
}

/// The index-th job file of a seed: a third is valid, the rest has one fault or several.
pub fn job(seed: u64, index: u64) -> Vec<u8> {
    let mut chance = Chance::new(seed, index);
    let sketch = valid::sketch(&mut chance);
    let mut words = sketch.job_words();
    if chance.one_in(3) {
        return crate::words::to_bytes(&words);
    }
    if chance.one_in(5) {
        return damage_bytes(&mut chance, crate::words::to_bytes(&words));
    }
    for _ in 0..chance.pick(&[1, 1, 1, 2, 4]) {
        damage_words(&mut chance, &sketch, &mut words);
    }
    let bytes = crate::words::to_bytes(&words);
    if chance.one_in(10) {
        damage_bytes(&mut chance, bytes)
    } else {
        bytes
    }
}
