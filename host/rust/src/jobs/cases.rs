//! Inputs of the two exported functions.

use super::chance::Chance;
use super::damage::{damage_bytes, damage_words};
use super::sketch::Sketch;
use super::valid;
use crate::exported::{self, OUT_BYTES};
use crate::field::P;
use crate::words::{from_bytes, to_bytes};

#[derive(Clone, Debug)]
pub enum Case {
    Answers { job: Vec<u8>, out_len: usize },
    Check { circuit: Vec<u8>, public: Vec<u8>, query: Vec<u8> },
}

/// The index-th case of a seed: the two functions in turn.
pub fn case(seed: u64, index: u64) -> Case {
    if index % 2 == 0 {
        answers_case(seed, index)
    } else {
        check_case(&mut Chance::new(seed, index))
    }
}

fn answers_case(seed: u64, index: u64) -> Case {
    let mut chance = Chance::new(!seed, index);
    let wrong = chance.pick(&[0, 1, 4, 15, 17, 20, 32]);
    let out_len = chance.pick(&[OUT_BYTES, OUT_BYTES, OUT_BYTES, OUT_BYTES, wrong]);
    Case::Answers { job: super::job(seed, index), out_len }
}

/// A third is honest; the others have faults in the query, in the circuit and public section, or in both.
fn check_case(chance: &mut Chance) -> Case {
    let sketch = valid::sketch(chance);
    let (mut words, mut query) = (sketch.job_words(), honest_query(&sketch));
    let (in_query, in_words) = chance.pick(&[
        (false, false),
        (false, false),
        (true, false),
        (false, true),
        (false, true),
        (true, true),
    ]);
    if in_query {
        query = damaged_query(chance, &sketch, query);
    }
    if in_words {
        for _ in 0..chance.pick(&[1, 1, 2, 4]) {
            damage_words(chance, &sketch, &mut words);
        }
    }
    let case = check_of(&sketch, words, query);
    if in_words && chance.one_in(4) {
        cut_one_slice(chance, case)
    } else {
        case
    }
}

/// The point and its four answers.
pub fn honest_query(sketch: &Sketch) -> [u32; 5] {
    let mut out = [0; OUT_BYTES];
    assert_eq!(exported::answers(&to_bytes(&sketch.job_words()), &mut out), 0);
    let four = from_bytes(&out);
    [sketch.point, four[0], four[1], four[2], four[3]]
}

/// Circuit and public section cut out of (perhaps damaged) job words.
fn check_of(sketch: &Sketch, words: Vec<u32>, query: [u32; 5]) -> Case {
    let (assignment, private) = (sketch.assignment(), sketch.private_count());
    Case::Check {
        circuit: to_bytes(&words[..assignment]),
        public: to_bytes(&words[assignment..private]),
        query: to_bytes(&query),
    }
}

/// Wrong answers, words above the field, points on a row; sometimes all of them.
fn damaged_query(chance: &mut Chance, sketch: &Sketch, mut query: [u32; 5]) -> [u32; 5] {
    for _ in 0..chance.pick(&[1, 1, 2, 3]) {
        let at = chance.within(1..=4);
        match chance.below(6) {
            0 | 1 => query[at] = chance.field_word(),
            2 => query[at] = ((u64::from(query[at]) + 1) % P) as u32,
            3 => query[at] = chance.pick(&[P as u32, query[at] | 0x8000_0000, u32::MAX]),
            4 => query[0] = chance.pick(&[1, sketch.m, P as u32, P as u32 + 1, u32::MAX]),
            _ => query[0] = chance.pick(&[0, sketch.m + 1, P as u32 - 1]),
        }
    }
    query
}

fn cut_one_slice(chance: &mut Chance, mut case: Case) -> Case {
    if let Case::Check { circuit, public, query } = &mut case {
        let slice = [circuit, public, query].into_iter().nth(chance.below(3)).expect("one of three");
        *slice = damage_bytes(chance, std::mem::take(slice));
    }
    case
}
