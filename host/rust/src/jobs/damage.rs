//! Faults: each kind aims at one refusal's boundary; several together try the order of the refusals.

use super::chance::Chance;
use super::sketch::Sketch;
use crate::field::P;
use crate::job::MOST_BYTES;

/// The words at which some range of the rules begins or ends, or arithmetic would wrap.
pub const EDGE_WORDS: [u32; 16] = [
    0,
    1,
    2,
    3,
    4,
    255,
    256,
    257,
    1024,
    1025,
    P as u32 - 1,
    P as u32,
    P as u32 + 1,
    0x7FFF_FFFF,
    0x8000_0000,
    u32::MAX,
];

const ABOVE_THE_FIELD: [u32; 3] = [P as u32, P as u32 + 1, u32::MAX];

/// One fault in the job's words. Where a part is missing (no entry, no private value) it may do nothing.
pub fn damage_words(chance: &mut Chance, sketch: &Sketch, words: &mut [u32]) {
    let (assignment, tail) = (sketch.assignment(), sketch.tail());
    let any_edge = chance.pick(&EDGE_WORDS);
    let too_big = chance.pick(&ABOVE_THE_FIELD);
    match chance.below(14) {
        0 => words[chance.below(3)] = chance.pick(&[0, 257, sketch.n + 1, u32::MAX, any_edge]),
        1 => {
            let at = chance.pick(&sketch.section_counts());
            let near = [words[at].wrapping_add(1), words[at].saturating_sub(1)];
            words[at] = chance.pick(&[near[0], near[1], 1025, u32::MAX, any_edge]);
        }
        2 => damage_entry(chance, sketch, words, |chance, entry| {
            let edges = [0, sketch.m + 1, sketch.n + 1, u32::MAX];
            entry[chance.below(2)] = chance.pick(&edges);
        }),
        3 => damage_entry(chance, sketch, words, |chance, entry| {
            entry[2] = chance.pick(&[0, 0, too_big]);
        }),
        4 => damage_order(chance, sketch, words),
        5 => {
            let at = chance.pick(&[assignment, sketch.private_count()]);
            words[at] = chance.pick(&[words[at].wrapping_add(1), words[at].wrapping_sub(1), any_edge]);
        }
        6 => words[assignment + 1] = chance.pick(&[0, 2, P as u32 + 1, any_edge]),
        7 => words[assignment + chance.within(1..=sketch.n as usize + 1)] = too_big,
        8 => words[chance.pick(&[tail, tail + 4])] = any_edge,
        9 => words[tail + chance.within(1..=3)] = too_big,
        10 => {
            let row = chance.within(1..=sketch.m as usize) as u32;
            words[tail + 5] = chance.pick(&[1, sketch.m, row, P as u32 + row, too_big]);
        }
        11 | 12 => break_a_row(chance, sketch, words),
        _ => words[chance.below(words.len())] = chance.pick(&[any_edge, u32::MAX]),
    }
}

/// Well-formed, but some row no longer holds (almost always): an entry's value, or the value of its column.
pub fn break_a_row(chance: &mut Chance, sketch: &Sketch, words: &mut [u32]) {
    let assignment = sketch.assignment();
    let mut column = 1;
    damage_entry(chance, sketch, words, |chance, entry| {
        column = entry[1].min(sketch.n);
        if column == 1 || chance.one_in(2) {
            entry[2] = chance.nonzero_field_word();
        }
    });
    if column > 1 {
        let public = column <= sketch.q;
        words[assignment + column as usize + usize::from(!public)] = chance.field_word();
    }
}

/// A change to one entry's three words.
fn damage_entry(
    chance: &mut Chance,
    sketch: &Sketch,
    words: &mut [u32],
    change: impl FnOnce(&mut Chance, &mut [u32]),
) {
    let matrix = chance.below(3);
    if !sketch.sections[matrix].is_empty() {
        let any = chance.below(sketch.sections[matrix].len());
        let entry = chance.pick(&[0, any]);
        let at = sketch.section_counts()[matrix] + 1 + 3 * entry;
        change(chance, &mut words[at..at + 3]);
    }
}

/// An entry set to the place of the one before it, or the two exchanged.
fn damage_order(chance: &mut Chance, sketch: &Sketch, words: &mut [u32]) {
    let matrix = chance.below(3);
    let entries = sketch.sections[matrix].len();
    if entries >= 2 {
        let at = sketch.section_counts()[matrix] + 1 + 3 * chance.within(1..=entries - 1);
        if chance.one_in(2) {
            words.copy_within(at - 3..at - 1, at);
        } else {
            let (before, this) = words[at - 3..at + 3].split_at_mut(3);
            before.swap_with_slice(this);
        }
    }
}

/// One fault in a file's length or alignment: cut, extended, a word taken out or put in.
pub fn damage_bytes(chance: &mut Chance, mut bytes: Vec<u8>) -> Vec<u8> {
    let word = 4 * chance.below(bytes.len() / 4 + 1);
    let any_edge = chance.pick(&EDGE_WORDS).to_le_bytes();
    match chance.below(8) {
        0 | 1 => bytes.truncate(word),
        2 => bytes.truncate(chance.below(bytes.len() + 1)),
        3 => bytes.extend(any_edge),
        4 => bytes.extend(vec![any_edge[0]; chance.within(1..=9)]),
        5 => bytes.resize(MOST_BYTES + chance.pick(&[0, 1, 4, 4096]), any_edge[0]),
        6 => drop(bytes.splice(word..word, any_edge)),
        _ => drop(bytes.drain(word..(word + 4).min(bytes.len()))),
    }
    bytes
}
