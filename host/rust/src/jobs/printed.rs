//! The rules' printed circuits K and K1, and a job over each: J, which is printed too, and a small one.

pub struct Printed {
    pub circuit: &'static [u32],
    pub assignment: &'static [u32],
    /// Blinders and point, each behind its count.
    pub tail: &'static [u32],
    /// The point and its four answers.
    pub query: &'static [u32],
}

pub const K: [u32; 27] = [2, 2, 4, 2, 1, 3, 1, 2, 4, 1, 3, 1, 3, 1, 2, 1, 2, 2, 3, 1, 2, 1, 4, 1, 2, 2, 1];
/// One row, q = 1, an empty section C.
pub const K1: [u32; 15] = [1, 1, 2, 1, 1, 2, 1, 2, 1, 1, 2013265920, 1, 2, 1, 0];
/// The assignment of J.
pub const W: [u32; 6] = [2, 1, 45, 2, 3, 9];

pub const J: Printed =
    Printed { circuit: &K, assignment: &W, tail: &[3, 1, 2, 3, 1, 3], query: &[3, 17, 7, 2013265918, 50] };
pub const J1: Printed =
    Printed { circuit: &K1, assignment: &[1, 1, 1, 1], tail: &[3, 1, 1, 0, 1, 5], query: &[5, 5, 5, 0, 5] };

impl Printed {
    pub fn job_words(&self) -> Vec<u32> {
        [self.circuit, self.assignment, self.tail].concat()
    }

    /// The count q and the q public values.
    pub fn public(&self) -> &'static [u32] {
        &self.assignment[..=self.assignment[0] as usize]
    }
}
