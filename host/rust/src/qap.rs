//! RULES 4, over an accepted circuit: columns by Lagrange's formula, the quotient through
//! its values at m + 1 points that are no rows. No polynomial is ever multiplied or divided here.

use crate::circuit::{Circuit, A, B, C};
use crate::field::{add, inverse, mul, sub};
use crate::poly::{add_scaled, value, vanishing, Basis, Poly};
use std::ops::RangeInclusive;

pub struct Qap<'a> {
    circuit: &'a Circuit,
    rows: Basis,
}

/// Z(X), the product of (X − i) over i = 1..m.
pub fn target(m: usize) -> Poly {
    vanishing(&numbers(1..=m))
}

fn numbers(range: RangeInclusive<usize>) -> Vec<u64> {
    range.map(|i| i as u64).collect()
}

impl<'a> Qap<'a> {
    pub fn new(circuit: &'a Circuit) -> Qap<'a> {
        Qap { circuit, rows: Basis::at(&numbers(1..=circuit.m)) }
    }

    /// Column j (from 1) of a matrix: the polynomial that takes its entries at the rows.
    pub fn column(&self, matrix: usize, j: usize) -> Poly {
        let mut values = vec![0; self.circuit.m];
        for entry in self.circuit.sections[matrix].iter().filter(|entry| entry.column as usize == j) {
            values[entry.row as usize - 1] = entry.value.into();
        }
        self.rows.through(&values)
    }

    /// The sum of w_j times column j over some columns.
    pub fn part(&self, matrix: usize, w: &[u64], columns: RangeInclusive<usize>) -> Poly {
        let zero = vec![0; self.circuit.m];
        columns.fold(zero, |sum, j| add_scaled(&sum, w[j - 1], &self.column(matrix, j)))
    }

    /// A', B' or C': the sum over all columns plus the blinder times Z.
    pub fn blinded(&self, matrix: usize, w: &[u64], blinder: u64) -> Poly {
        add_scaled(&self.part(matrix, w, 1..=self.circuit.n), blinder, &target(self.circuit.m))
    }

    /// A', B' and C'.
    pub fn blinded_three(&self, w: &[u64], blinders: [u64; 3]) -> [Poly; 3] {
        [A, B, C].map(|matrix| self.blinded(matrix, w, blinders[matrix]))
    }

    /// H' where every row holds. Its degree is at most m, so m + 1 of its values (A'B' − C') / Z determine it.
    pub fn quotient(&self, w: &[u64], blinders: [u64; 3]) -> Poly {
        let m = self.circuit.m;
        let (three, z) = (self.blinded_three(w, blinders), target(m));
        let points = numbers(m + 1..=2 * m + 1);
        let quotient_at = |&x: &u64| mul(excess(&three, x), inverse(value(&z, x)));
        let values: Vec<u64> = points.iter().map(quotient_at).collect();
        Basis::at(&points).through(&values)
    }

    /// Is A'B' − C' = Z · candidate, for m + 1 candidate words? Both sides have degree at most 2m: they are
    /// the same polynomial exactly if they agree at the 2m + 1 points 0..2m.
    pub fn divides_to(&self, w: &[u64], blinders: [u64; 3], candidate: &[u64]) -> bool {
        let m = self.circuit.m;
        let (three, z) = (self.blinded_three(w, blinders), target(m));
        let agree = |&x: &u64| excess(&three, x) == mul(value(&z, x), value(candidate, x));
        numbers(0..=2 * m).iter().all(agree)
    }

    /// The four answers at a point that is no row.
    pub fn answers(&self, w: &[u64], blinders: [u64; 3], point: u64) -> [u64; 4] {
        let (q, n) = (self.circuit.q, self.circuit.n);
        let z = value(&target(self.circuit.m), point);
        let [a, b, c] = [A, B, C].map(|matrix| {
            let private = value(&self.part(matrix, w, q + 1..=n), point);
            add(private, mul(blinders[matrix], z))
        });
        [a, b, c, value(&self.quotient(w, blinders), point)]
    }

    /// The answer check's equality uv − t = Z(s) · fourth.
    pub fn accepts(&self, public: &[u64], point: u64, answers: [u64; 4]) -> bool {
        let z = value(&target(self.circuit.m), point);
        let [u, v, t] = [A, B, C].map(|matrix| {
            let part = value(&self.part(matrix, public, 1..=self.circuit.q), point);
            add(part, answers[matrix])
        });
        sub(mul(u, v), t) == mul(z, answers[3])
    }
}

/// A'B' − C' at x.
fn excess(three: &[Poly; 3], x: u64) -> u64 {
    let [a, b, c] = [A, B, C].map(|matrix| value(&three[matrix], x));
    sub(mul(a, b), c)
}
