//! Polynomials as lists of field words, power 0 first, and Lagrange's formula.

use crate::field::{add, inverse, mul, sub};

pub type Poly = Vec<u64>;

/// The value at x, from power 0 on.
pub fn value(poly: &[u64], x: u64) -> u64 {
    let (mut sum, mut power) = (0, 1);
    for &coefficient in poly {
        sum = add(sum, mul(coefficient, power));
        power = mul(power, x);
    }
    sum
}

/// poly + k · other, in the length of the longer one.
pub fn add_scaled(poly: &[u64], k: u64, other: &[u64]) -> Poly {
    let word = |list: &[u64], at: usize| list.get(at).copied().unwrap_or(0);
    (0..poly.len().max(other.len())).map(|at| add(word(poly, at), mul(k, word(other, at)))).collect()
}

/// The product of (X − point) over all points.
pub fn vanishing(points: &[u64]) -> Poly {
    points.iter().fold(vec![1], |poly, &point| {
        let mut shifted = vec![0];
        shifted.extend(&poly);
        add_scaled(&shifted, sub(0, point), &poly)
    })
}

/// poly / (X − root) for a root of poly: from the top down, each word is the one above it brought down.
fn without_root(poly: &[u64], root: u64) -> Poly {
    let mut quotient = vec![0; poly.len() - 1];
    let mut carry = 0;
    for at in (0..quotient.len()).rev() {
        carry = add(poly[at + 1], mul(root, carry));
        quotient[at] = carry;
    }
    quotient
}

/// The Lagrange polynomials of some distinct points: the i-th is 1 at the i-th point and 0 at the others.
pub struct Basis {
    polys: Vec<Poly>,
}

impl Basis {
    pub fn at(points: &[u64]) -> Basis {
        let all = vanishing(points);
        let basis_poly = |&own: &u64| {
            let others = points.iter().filter(|&&x| x != own);
            let denominator = others.fold(1, |product, &x| mul(product, sub(own, x)));
            add_scaled(&[], inverse(denominator), &without_root(&all, own))
        };
        Basis { polys: points.iter().map(basis_poly).collect() }
    }

    /// The polynomial with as many words as there are points that takes these values there.
    pub fn through(&self, values: &[u64]) -> Poly {
        assert_eq!(values.len(), self.polys.len());
        let mut sum = vec![0; values.len()];
        for (&y, poly) in values.iter().zip(&self.polys) {
            if y != 0 {
                sum = add_scaled(&sum, y, poly);
            }
        }
        sum
    }
}

#[cfg(test)]
mod tests {
    use super::*;
    use crate::field::P;

    #[test]
    fn value_begins_with_power_zero() {
        assert_eq!(value(&[5, 7, 2], 0), 5);
        assert_eq!(value(&[5, 7, 2], 10), 275);
        assert_eq!(value(&[], 3), 0);
    }

    #[test]
    fn vanishing_of_one_two_three() {
        assert_eq!(vanishing(&[1, 2, 3]), [P - 6, 11, P - 6, 1]);
    }

    #[test]
    fn a_root_is_taken_out_again() {
        assert_eq!(without_root(&vanishing(&[4, 9, 17]), 9), vanishing(&[4, 17]));
    }

    /// The lecture's example over the field: through (1,1), (2,0), (3,1), (4,−1) goes −5/6 x³ + 6x² − 79/6 x + 9.
    #[test]
    fn the_lectures_column() {
        let sixth = inverse(6);
        let expected = [9, sub(0, mul(79, sixth)), 6, sub(0, mul(5, sixth))];
        assert_eq!(Basis::at(&[1, 2, 3, 4]).through(&[1, 0, 1, P - 1]), expected);
    }

    #[test]
    fn the_polynomial_takes_its_values() {
        let points: Vec<u64> = (7..107).chain([0, P - 1]).collect();
        let values: Vec<u64> = points.iter().map(|x| mul(*x, 1_234_567_890 + x % 5)).collect();
        let poly = Basis::at(&points).through(&values);
        assert_eq!(poly.len(), points.len());
        for (&x, &y) in points.iter().zip(&values) {
            assert_eq!(value(&poly, x), y);
        }
    }
}
