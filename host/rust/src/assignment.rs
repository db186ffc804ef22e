//! RULES 3: two sections, public and private, with refusals 6 and 7.

use crate::circuit::Circuit;
use crate::field::is_field_word;
use crate::refusal::{need, Verdict};

/// The n values w_1 .. w_n of an assignment that is all of `words`.
pub fn read(circuit: &Circuit, words: &[u32]) -> Verdict<Vec<u64>> {
    let (q, n) = (circuit.q, circuit.n);
    need(words.len() == n + 2, 6, 0)?;
    need(words[0] as usize == q && words[q + 1] as usize == n - q, 6, 0)?;
    let mut w = read_values(&words[..=q], 1)?;
    w.extend(read_values(words, q + 2)?);
    Ok(w)
}

/// The q public values of a public section that is all of `words`.
pub fn read_public(circuit: &Circuit, words: &[u32]) -> Verdict<Vec<u64>> {
    need(words.len() == circuit.q + 1 && words[0] as usize == circuit.q, 6, 0)?;
    read_values(words, 1)
}

/// The part of the lent assignment that holds the public section; empty where either would be refused.
pub fn public_section<'a>(circuit: &[u32], assignment: &'a [u32]) -> &'a [u32] {
    match Circuit::read(circuit).and_then(|c| read(&c, assignment).map(|_| c.q)) {
        Ok(q) => &assignment[..=q],
        Err(_) => &[],
    }
}

/// The values from index `from` on. The index of the first public value is always 1.
fn read_values(words: &[u32], from: usize) -> Verdict<Vec<u64>> {
    for (at, &word) in words.iter().enumerate().skip(from) {
        need(is_field_word(word) && (at != 1 || word == 1), 7, at)?;
    }
    Ok(words[from..].iter().map(|&word| word.into()).collect())
}
