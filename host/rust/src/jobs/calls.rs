//! Inputs of the rules' calls on words that no exported function reaches: target, columns, quotient and the
//! division check. Numbers 8 (with other lengths than 16) and 9 come from here.

use super::chance::Chance;
use super::damage::{break_a_row, damage_words, EDGE_WORDS};
use super::valid;
use crate::calls;
use crate::refusal::Verdict;

#[derive(Clone, Debug)]
pub enum Call {
    Target { m: u32, out_len: usize },
    Column { circuit: Vec<u32>, matrix: u32, column: u32, out_len: usize },
    Columns { circuit: Vec<u32>, matrix: u32, out_len: usize },
    Quotient { circuit: Vec<u32>, assignment: Vec<u32>, blinders: [u32; 3], out_len: usize },
    Division { circuit: Vec<u32>, assignment: Vec<u32>, blinders: [u32; 3], candidate: Vec<u32> },
}

/// The index-th call of a seed: the five calls in turn, half of them without damage to the words.
pub fn call(seed: u64, index: u64) -> Call {
    let mut chance = Chance::new(seed, index);
    let sketch = valid::sketch(&mut chance);
    let mut words = sketch.job_words();
    match chance.below(6) {
        0 => break_a_row(&mut chance, &sketch, &mut words),
        1 | 2 => damage_words(&mut chance, &sketch, &mut words),
        _ => {}
    }
    let circuit = words[..sketch.assignment()].to_vec();
    let assignment = words[sketch.assignment()..sketch.tail()].to_vec();
    let blinders = [1, 2, 3].map(|at| words[sketch.tail() + at]);
    let (m, n) = (sketch.m as usize, sketch.n as usize);
    let matrix = chance.pick(&[0, 1, 2, 0, 1, 2, 3, u32::MAX]);
    let near = |chance: &mut Chance, length: usize| {
        chance.pick(&[length, length, length, length + 1, length - 1, 0])
    };
    match index % 5 {
        0 => {
            let edge = chance.pick(&EDGE_WORDS);
            let m = chance.pick(&[sketch.m, sketch.m, sketch.m, edge]);
            Call::Target { m, out_len: near(&mut chance, m.min(300) as usize + 1) }
        }
        1 => {
            let inside = chance.within(1..=n) as u32;
            let column = chance.pick(&[1, sketch.n, inside, inside, 0, sketch.n + 1, u32::MAX]);
            Call::Column { circuit, matrix, column, out_len: near(&mut chance, m) }
        }
        2 => Call::Columns { circuit, matrix, out_len: near(&mut chance, m * n) },
        3 => Call::Quotient { circuit, assignment, blinders, out_len: near(&mut chance, m + 1) },
        _ => {
            let candidate = candidate(&mut chance, &circuit, &assignment, blinders, m + 1);
            Call::Division { circuit, assignment, blinders, candidate }
        }
    }
}

/// The right quotient, or one with a word changed, too many or too few.
fn candidate(
    chance: &mut Chance,
    circuit: &[u32],
    assignment: &[u32],
    blinders: [u32; 3],
    length: usize,
) -> Vec<u32> {
    let mut words = vec![0; length];
    // A refusal leaves zeros, as good a candidate as any.
    let _ = calls::quotient(circuit, assignment, blinders, &mut words);
    match chance.below(6) {
        0 => words[chance.below(length)] = chance.field_word(),
        1 => words[chance.below(length)] = u32::MAX,
        2 => words.push(chance.field_word()),
        3 => drop(words.pop()),
        _ => {}
    }
    words
}

impl Call {
    /// What the second program says, and the words of the output buffer that began with all words `fill`.
    pub fn second(&self, fill: u32) -> (Verdict, Vec<u32>) {
        let mut out = vec![fill; self.out_len()];
        let verdict = match self {
            Call::Target { m, .. } => calls::target(*m, &mut out),
            Call::Column { circuit, matrix, column, .. } => {
                calls::column(circuit, *matrix, *column, &mut out)
            }
            Call::Columns { circuit, matrix, .. } => calls::columns(circuit, *matrix, &mut out),
            Call::Quotient { circuit, assignment, blinders, .. } => {
                calls::quotient(circuit, assignment, *blinders, &mut out)
            }
            Call::Division { circuit, assignment, blinders, candidate } => {
                calls::division_check(circuit, assignment, *blinders, candidate)
            }
        };
        (verdict, out)
    }

    fn out_len(&self) -> usize {
        match self {
            Call::Target { out_len, .. }
            | Call::Column { out_len, .. }
            | Call::Columns { out_len, .. }
            | Call::Quotient { out_len, .. } => *out_len,
            Call::Division { .. } => 0,
        }
    }
}
