//! RULES 2: the reader with its refusals 1 to 5, and the rows of the three matrices.

use crate::field::{add, is_field_word, mul};
use crate::refusal::{need, Verdict};

/// Matrix numbers.
pub const A: usize = 0;
pub const B: usize = 1;
pub const C: usize = 2;

pub const MOST_ROWS: u32 = 256;
pub const MOST_COLUMNS: u32 = 256;
pub const MOST_ENTRIES: u32 = 1024;

#[derive(Clone, Copy, Debug, PartialEq, Eq)]
pub struct Entry {
    pub row: u32,
    pub column: u32,
    pub value: u32,
}

#[derive(Debug, PartialEq, Eq)]
pub struct Circuit {
    pub m: usize,
    pub q: usize,
    pub n: usize,
    pub sections: [Vec<Entry>; 3],
    /// How many words it took.
    pub words: usize,
}

impl Circuit {
    /// The circuit that is all of `words`.
    pub fn read(words: &[u32]) -> Verdict<Circuit> {
        let circuit = Circuit::read_front(words)?;
        need(circuit.words == words.len(), 1, words.len())?;
        Ok(circuit)
    }

    /// The circuit at the front of `words`; what stands behind it is not looked at.
    pub fn read_front(words: &[u32]) -> Verdict<Circuit> {
        need(words.len() >= 3, 1, words.len())?;
        let [m, q, n] = [words[0], words[1], words[2]];
        need((1..=MOST_ROWS).contains(&m), 2, 0)?;
        need((1..=MOST_COLUMNS).contains(&n), 2, 2)?;
        need((1..=n).contains(&q), 2, 1)?;
        let mut at = 3;
        let mut sections = [vec![], vec![], vec![]];
        for section in &mut sections {
            *section = read_section(words, at, m, n)?;
            at += 1 + 3 * section.len();
        }
        Ok(Circuit { m: m as usize, q: q as usize, n: n as usize, sections, words: at })
    }

    /// Row i (from 1) of a matrix times the assignment.
    pub fn row_sum(&self, matrix: usize, row: usize, w: &[u64]) -> u64 {
        let entries = self.sections[matrix].iter().filter(|entry| entry.row as usize == row);
        entries.fold(0, |sum, entry| add(sum, mul(entry.value.into(), w[entry.column as usize - 1])))
    }

    /// The lowest row where A times B is not C.
    pub fn lowest_failing_row(&self, w: &[u64]) -> Option<usize> {
        (1..=self.m).find(|&row| {
            let [a, b, c] = [A, B, C].map(|matrix| self.row_sum(matrix, row, w));
            mul(a, b) != c
        })
    }

    pub fn is_row(&self, point: u32) -> bool {
        (1..=self.m).contains(&(point as usize))
    }
}

/// The section whose count stands at index `at`.
fn read_section(words: &[u32], at: usize, m: u32, n: u32) -> Verdict<Vec<Entry>> {
    need(at < words.len(), 1, words.len())?;
    let count = words[at];
    need(count <= MOST_ENTRIES, 2, at)?;
    let entries = words[at + 1..].chunks_exact(3).take(count as usize);
    need(entries.len() == count as usize, 1, words.len())?;
    let mut section: Vec<Entry> = Vec::with_capacity(count as usize);
    for entry in entries {
        let place = at + 1 + 3 * section.len();
        let entry = Entry { row: entry[0], column: entry[1], value: entry[2] };
        need((1..=m).contains(&entry.row) && (1..=n).contains(&entry.column), 3, place)?;
        need(entry.value != 0 && is_field_word(entry.value), 4, place)?;
        let above = |before: &Entry| (before.row, before.column) < (entry.row, entry.column);
        need(section.last().map_or(true, above), 5, place)?;
        section.push(entry);
    }
    Ok(section)
}
