//! A job in parts, before it becomes words, and the index each part has then: damage needs to know both.

use crate::circuit::Entry;

pub struct Sketch {
    pub m: u32,
    pub q: u32,
    pub n: u32,
    pub sections: [Vec<Entry>; 3],
    /// w_1 .. w_n
    pub values: Vec<u32>,
    pub blinders: [u32; 3],
    pub point: u32,
}

impl Sketch {
    pub fn circuit_words(&self) -> Vec<u32> {
        let mut words = vec![self.m, self.q, self.n];
        for section in &self.sections {
            words.push(section.len() as u32);
            words.extend(section.iter().flat_map(|entry| [entry.row, entry.column, entry.value]));
        }
        words
    }

    pub fn public_words(&self) -> Vec<u32> {
        [&[self.q], &self.values[..self.q as usize]].concat()
    }

    pub fn assignment_words(&self) -> Vec<u32> {
        let private = &self.values[self.q as usize..];
        [&self.public_words()[..], &[self.n - self.q], private].concat()
    }

    pub fn job_words(&self) -> Vec<u32> {
        let [d1, d2, d3] = self.blinders;
        let tail = [3, d1, d2, d3, 1, self.point];
        [&self.circuit_words()[..], &self.assignment_words(), &tail].concat()
    }

    /// Indices of the three entry counts.
    pub fn section_counts(&self) -> [usize; 3] {
        let after = |count: usize, matrix: usize| count + 1 + 3 * self.sections[matrix].len();
        [3, after(3, 0), after(after(3, 0), 1)]
    }

    /// Index of the assignment's first word, the public count.
    pub fn assignment(&self) -> usize {
        self.section_counts()[2] + 1 + 3 * self.sections[2].len()
    }

    /// Index of the private count.
    pub fn private_count(&self) -> usize {
        self.assignment() + 1 + self.q as usize
    }

    /// Index of the blinder count; the blinders, the point count and the point follow.
    pub fn tail(&self) -> usize {
        self.assignment() + 2 + self.n as usize
    }
}
