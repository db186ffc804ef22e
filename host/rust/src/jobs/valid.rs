//! Valid jobs: A, B and the assignment are free; C is then solved row by row, through one entry that is kept
//! open for it in a column whose value is not 0 (the first column's value is 1, so there always is one).

use super::chance::Chance;
use super::sketch::Sketch;
use crate::circuit::{Entry, MOST_ENTRIES};
use crate::field::{add, inverse, mul, sub, P};

/// Any size; one in a hundred is the largest in everything.
pub fn sketch(chance: &mut Chance) -> Sketch {
    if chance.one_in(100) {
        return full(chance);
    }
    let (m, n) = (size(chance), size(chance));
    let counts = [(); 3].map(|_| entry_count(chance, m * n));
    sketch_of(chance, m, n, counts)
}

/// m = n = 256 and 1,024 entries a section: the longest file there is.
pub fn full(chance: &mut Chance) -> Sketch {
    full_of(chance, 256)
}

/// As many rows as columns, at least 32, and 1,024 entries a section. A row whose open entry solves to 0 has
/// none, so it takes some tries.
pub fn full_of(chance: &mut Chance, size: usize) -> Sketch {
    let most = MOST_ENTRIES as usize;
    loop {
        let sketch = sketch_of(chance, size, size, [most; 3]);
        if sketch.sections[2].len() == most {
            return sketch;
        }
    }
}

pub fn sketch_of(chance: &mut Chance, m: usize, n: usize, counts: [usize; 3]) -> Sketch {
    let inside = chance.within(1..=n);
    let q = chance.pick(&[1, n, inside]);
    let mut values: Vec<u32> = (0..n).map(|_| chance.field_word()).collect();
    values[0] = 1;
    let a = free_section(chance, m, n, counts[0]);
    let b = free_section(chance, m, n, counts[1]);
    let c = solved_section(chance, m, n, counts[2], &values, [&a, &b]);
    Sketch {
        m: m as u32,
        q: q as u32,
        n: n as u32,
        sections: [a, b, c],
        values,
        blinders: [(); 3].map(|_| chance.field_word()),
        point: point(chance, m),
    }
}

fn size(chance: &mut Chance) -> usize {
    match chance.below(8) {
        0..=3 => chance.within(1..=4),
        4..=5 => chance.within(1..=40),
        6 => chance.within(1..=256),
        _ => chance.pick(&[1, 2, 255, 256]),
    }
}

fn entry_count(chance: &mut Chance, cells: usize) -> usize {
    let most = cells.min(MOST_ENTRIES as usize);
    match chance.below(5) {
        0 => 0,
        1 => most,
        2 => chance.within(0..=most),
        _ => chance.within(0..=most.min(12)),
    }
}

/// `count` of the given cells in their order, each choice equally likely.
fn choose(chance: &mut Chance, cells: Vec<(usize, usize)>, count: usize) -> Vec<(usize, usize)> {
    let (mut left, mut wanted) = (cells.len(), count.min(cells.len()));
    let mut keep = |_: &(usize, usize)| {
        let kept = chance.below(left) < wanted;
        left -= 1;
        wanted -= usize::from(kept);
        kept
    };
    cells.into_iter().filter(|cell| keep(cell)).collect()
}

fn cells(m: usize, n: usize) -> impl Iterator<Item = (usize, usize)> {
    (1..=m).flat_map(move |row| (1..=n).map(move |column| (row, column)))
}

fn entry(row: usize, column: usize, value: u32) -> Entry {
    Entry { row: row as u32, column: column as u32, value }
}

fn free_section(chance: &mut Chance, m: usize, n: usize, count: usize) -> Vec<Entry> {
    let chosen = choose(chance, cells(m, n).collect(), count);
    chosen.into_iter().map(|(row, column)| entry(row, column, chance.nonzero_field_word())).collect()
}

fn solved_section(
    chance: &mut Chance,
    m: usize,
    n: usize,
    count: usize,
    values: &[u32],
    [a, b]: [&Vec<Entry>; 2],
) -> Vec<Entry> {
    let with_value: Vec<usize> = (1..=n).filter(|&column| values[column - 1] != 0).collect();
    let open: Vec<usize> = (0..m).map(|_| chance.pick(&with_value)).collect();
    let others = cells(m, n).filter(|&(row, column)| open[row - 1] != column).collect();
    let mut section: Vec<Entry> = choose(chance, others, count.saturating_sub(m))
        .into_iter()
        .map(|(row, column)| entry(row, column, chance.nonzero_field_word()))
        .collect();
    let [a, b, rest] = [a, b, &section].map(|section| row_sums(section, m, values));
    for row in 1..=m {
        let column = open[row - 1];
        let missing = sub(mul(a[row - 1], b[row - 1]), rest[row - 1]);
        let value = mul(missing, inverse(values[column - 1].into()));
        if value != 0 {
            section.push(entry(row, column, value as u32));
        }
    }
    section.sort_by_key(|entry| (entry.row, entry.column));
    section
}

fn row_sums(section: &[Entry], m: usize, values: &[u32]) -> Vec<u64> {
    let mut sums = vec![0; m];
    for entry in section {
        let sum = &mut sums[entry.row as usize - 1];
        *sum = add(*sum, mul(entry.value.into(), values[entry.column as usize - 1].into()));
    }
    sums
}

/// Off the rows: 0 and the words next to the edges come often.
fn point(chance: &mut Chance, m: usize) -> u32 {
    let after = m as u32 + 1;
    let anywhere = chance.within(after as usize..=P as usize - 1) as u32;
    chance.pick(&[0, after, (P - 1) as u32, anywhere, anywhere])
}

#[cfg(test)]
mod tests {
    use super::*;
    use std::collections::BTreeSet;

    #[test]
    fn every_size_comes() {
        let mut chance = Chance::new(1, 0);
        let drawn: BTreeSet<usize> = (0..20_000).map(|_| size(&mut chance)).collect();
        assert!(drawn.into_iter().eq(1..=256));
    }
}
