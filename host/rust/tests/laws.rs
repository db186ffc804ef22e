//! Laws of the rules and the demands, on generated jobs: the second program against schoolbook arithmetic that
//! it does not use itself.

use second::calls;
use second::circuit::{Circuit, A, B, C};
use second::field::{add, inverse, mul, sub, P};
use second::jobs::chance::Chance;
use second::jobs::{calls::call, sketch::Sketch, valid};
use second::poly::{add_scaled, value, Poly};
use second::qap::{target, Qap};
use second::refusal::refuse;

struct Made {
    sketch: Sketch,
    circuit: Circuit,
    w: Vec<u64>,
    blinders: [u64; 3],
}

fn made(seed: u64, count: u64) -> impl Iterator<Item = Made> {
    (0..count).map(move |index| {
        let sketch = valid::sketch(&mut Chance::new(seed, index));
        let circuit = Circuit::read(&sketch.circuit_words()).expect("valid");
        let w = sketch.values.iter().map(|&word| word.into()).collect();
        let blinders = sketch.blinders.map(u64::from);
        Made { sketch, circuit, w, blinders }
    })
}

fn product(left: &[u64], right: &[u64]) -> Poly {
    let mut whole = vec![0; left.len() + right.len() - 1];
    for (i, &x) in left.iter().enumerate() {
        for (k, &y) in right.iter().enumerate() {
            whole[i + k] = add(whole[i + k], mul(x, y));
        }
    }
    whole
}

/// Long division by a list that ends in 1: quotient and remainder.
fn divide(mut dividend: Poly, divisor: &[u64]) -> (Poly, Poly) {
    let top = divisor.len() - 1;
    let mut quotient = vec![0; dividend.len() - top];
    for at in (0..quotient.len()).rev() {
        quotient[at] = dividend[at + top];
        for (k, &word) in divisor.iter().enumerate() {
            dividend[at + k] = sub(dividend[at + k], mul(quotient[at], word));
        }
    }
    dividend.truncate(top);
    (quotient, dividend)
}

#[test]
fn the_quotient_is_what_long_division_leaves() {
    for job in made(11, 150) {
        let qap = Qap::new(&job.circuit);
        let [a, b, c] = qap.blinded_three(&job.w, job.blinders);
        let (quotient, remainder) = divide(add_scaled(&product(&a, &b), P - 1, &c), &target(job.circuit.m));
        assert!(remainder.iter().all(|&word| word == 0));
        assert_eq!(qap.quotient(&job.w, job.blinders), quotient);
    }
}

/// H' = H + d1 B + d2 A + d1 d2 Z − d3, and H's last two words are 0.
#[test]
fn the_blinded_quotient_follows_from_the_plain_one() {
    for job in made(12, 100) {
        let (qap, n) = (Qap::new(&job.circuit), job.circuit.n);
        let plain = qap.quotient(&job.w, [0; 3]);
        assert_eq!(plain[job.circuit.m - 1..], [0, 0]);
        let [d1, d2, d3] = job.blinders;
        let sum = add_scaled(&plain, d1, &qap.part(B, &job.w, 1..=n));
        let sum = add_scaled(&sum, d2, &qap.part(A, &job.w, 1..=n));
        let sum = add_scaled(&sum, mul(d1, d2), &target(job.circuit.m));
        assert_eq!(qap.quotient(&job.w, job.blinders), add_scaled(&sum, P - d3, &[1]));
    }
}

#[test]
fn columns_take_their_entries_at_the_rows() {
    for job in made(13, 40) {
        let qap = Qap::new(&job.circuit);
        for matrix in [A, B, C] {
            for j in 1..=job.circuit.n {
                let column = qap.column(matrix, j);
                assert_eq!(column.len(), job.circuit.m);
                let mut unit = vec![0; job.circuit.n];
                unit[j - 1] = 1;
                for i in 1..=job.circuit.m {
                    assert_eq!(value(&column, i as u64), job.circuit.row_sum(matrix, i, &unit));
                }
            }
        }
    }
}

#[test]
fn the_division_check_accepts_the_quotient_and_no_other_list() {
    let mut chance = Chance::new(14, 0);
    for job in made(14, 100) {
        let (circuit, assignment) = (job.sketch.circuit_words(), job.sketch.assignment_words());
        let mut list = vec![0; job.circuit.m + 1];
        let blinders = job.sketch.blinders;
        assert_eq!(calls::quotient(&circuit, &assignment, blinders, &mut list), Ok(()));
        assert_eq!(calls::division_check(&circuit, &assignment, blinders, &list), Ok(()));
        let at = chance.below(list.len());
        list[at] = ((u64::from(list[at]) + 1) % P) as u32;
        assert_eq!(calls::division_check(&circuit, &assignment, blinders, &list), refuse(13, 0));
    }
}

/// Demand 3: any three field values are the first three answers of exactly one blinder triple, and the fourth
/// follows from circuit, public values, point and those three.
#[test]
fn any_three_answers_have_their_blinders() {
    let mut chance = Chance::new(15, 0);
    for job in made(15, 100) {
        let (qap, q, n) = (Qap::new(&job.circuit), job.circuit.q, job.circuit.n);
        let s = job.sketch.point.into();
        let z = value(&target(job.circuit.m), s);
        let wanted = [(); 3].map(|_| u64::from(chance.field_word()));
        let blinders = [A, B, C].map(|matrix| {
            let private = value(&qap.part(matrix, &job.w, q + 1..=n), s);
            mul(sub(wanted[matrix], private), inverse(z))
        });
        let four = qap.answers(&job.w, blinders, s);
        assert_eq!(four[..3], wanted);
        let [u, v, t] =
            [A, B, C].map(|matrix| add(wanted[matrix], value(&qap.part(matrix, &job.w, 1..=q), s)));
        assert_eq!(mul(four[3], z), sub(mul(u, v), t));
    }
}

/// Only the fourth answer that belongs to the first three is accepted.
#[test]
fn one_changed_answer_is_rejected() {
    for job in made(16, 100) {
        let circuit = job.sketch.circuit_words();
        let (public, point) = (job.sketch.public_words(), job.sketch.point);
        let assignment = job.sketch.assignment_words();
        let four = calls::answers(&circuit, &assignment, job.sketch.blinders, point).unwrap();
        assert_eq!(calls::answer_check(&circuit, &public, point, four), Ok(()));
        for at in [2, 3] {
            let mut wrong = four;
            wrong[at] = ((u64::from(wrong[at]) + 1) % P) as u32;
            assert_eq!(calls::answer_check(&circuit, &public, point, wrong), refuse(13, 0));
        }
    }
}

#[test]
fn a_refused_call_writes_nothing_and_a_done_one_every_word() {
    const FILL: u32 = u32::MAX;
    for index in 0..1000 {
        let (verdict, out) = call(17, index).second(FILL);
        assert!(out.iter().all(|&word| (word == FILL) == verdict.is_err()));
    }
}
