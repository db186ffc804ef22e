//! The rules' calls on words, each with its refusals in the table's order: circuit, 6, 7, 9, 12, 11, 8, 10, 13.
//! A refused call writes nothing.

use crate::assignment;
use crate::circuit::{Circuit, MOST_ROWS};
use crate::field::is_field_word;
use crate::qap::{self, Qap};
use crate::refusal::{need, refuse, Verdict};

pub fn target(m: u32, out: &mut [u32]) -> Verdict {
    need((1..=MOST_ROWS).contains(&m), 2, 0)?;
    fill(out, &qap::target(m as usize))
}

/// Column `column` (from 1) of matrix 0, 1 or 2.
pub fn column(circuit: &[u32], matrix: u32, column: u32, out: &mut [u32]) -> Verdict {
    let circuit = Circuit::read(circuit)?;
    need(matrix < 3 && (1..=circuit.n).contains(&(column as usize)), 9, 0)?;
    fill(out, &Qap::new(&circuit).column(matrix as usize, column as usize))
}

/// All columns of a matrix, one after another.
pub fn columns(circuit: &[u32], matrix: u32, out: &mut [u32]) -> Verdict {
    let circuit = Circuit::read(circuit)?;
    need(matrix < 3, 9, 0)?;
    let qap = Qap::new(&circuit);
    let all: Vec<u64> = (1..=circuit.n).flat_map(|j| qap.column(matrix as usize, j)).collect();
    fill(out, &all)
}

pub fn quotient(circuit: &[u32], assignment: &[u32], blinders: [u32; 3], out: &mut [u32]) -> Verdict {
    let circuit = Circuit::read(circuit)?;
    let w = assignment::read(&circuit, assignment)?;
    field_words(&blinders, 0)?;
    need(out.len() == circuit.m + 1, 8, circuit.m + 1)?;
    rows_hold(&circuit, &w)?;
    fill(out, &Qap::new(&circuit).quotient(&w, blinders.map(u64::from)))
}

pub fn answers(circuit: &[u32], assignment: &[u32], blinders: [u32; 3], point: u32) -> Verdict<[u32; 4]> {
    let circuit = Circuit::read(circuit)?;
    let w = assignment::read(&circuit, assignment)?;
    field_words(&blinders, 0)?;
    off_the_rows(&circuit, point)?;
    rows_hold(&circuit, &w)?;
    let answers = Qap::new(&circuit).answers(&w, blinders.map(u64::from), point.into());
    Ok(answers.map(|word| word as u32))
}

pub fn answer_check(circuit: &[u32], public: &[u32], point: u32, answers: [u32; 4]) -> Verdict {
    let circuit = Circuit::read(circuit)?;
    let public = assignment::read_public(&circuit, public)?;
    field_words(&answers, 0)?;
    off_the_rows(&circuit, point)?;
    let accepted = Qap::new(&circuit).accepts(&public, point.into(), answers.map(u64::from));
    need(accepted, 13, 0)
}

pub fn division_check(circuit: &[u32], assignment: &[u32], blinders: [u32; 3], candidate: &[u32]) -> Verdict {
    let circuit = Circuit::read(circuit)?;
    let w = assignment::read(&circuit, assignment)?;
    field_words(&blinders, 0)?;
    field_words(candidate, 3)?;
    need(candidate.len() == circuit.m + 1, 8, circuit.m + 1)?;
    let candidate: Vec<u64> = candidate.iter().map(|&word| word.into()).collect();
    need(Qap::new(&circuit).divides_to(&w, blinders.map(u64::from), &candidate), 13, 0)
}

/// 12 at the lowest word above p − 1, indices counted from `first`.
pub fn field_words(words: &[u32], first: usize) -> Verdict {
    match words.iter().position(|&word| !is_field_word(word)) {
        Some(at) => refuse(12, first + at),
        None => Ok(()),
    }
}

/// 11 for a point that is no field word, or a row.
pub fn off_the_rows(circuit: &Circuit, point: u32) -> Verdict {
    need(is_field_word(point) && !circuit.is_row(point), 11, 0)
}

/// 10 at the lowest row that fails.
pub fn rows_hold(circuit: &Circuit, w: &[u64]) -> Verdict {
    circuit.lowest_failing_row(w).map_or(Ok(()), |row| refuse(10, row))
}

/// 8 unless the words fit exactly; else they are written.
fn fill(out: &mut [u32], words: &[u64]) -> Verdict {
    need(out.len() == words.len(), 8, words.len())?;
    for (to, &word) in out.iter_mut().zip(words) {
        *to = word as u32;
    }
    Ok(())
}
