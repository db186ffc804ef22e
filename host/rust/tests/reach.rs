//! The generator reaches what it is for: every number often, every size, and no valid job that is refused.

use second::circuit::Circuit;
use second::exported;
use second::jobs::cases::{case, Case};
use second::jobs::chance::Chance;
use second::jobs::{calls::call, job, systematic, valid};
use second::refusal::number_and_place;
use second::words::to_bytes;

const OFTEN: usize = 20;

/// How often each number 0 to 14 came.
fn tally(numbers: impl Iterator<Item = u64>) -> [usize; 15] {
    let mut counts = [0; 15];
    numbers.for_each(|number| counts[number as usize] += 1);
    counts
}

fn exactly_these_often(counts: [usize; 15], numbers: &[usize]) {
    for (number, &count) in counts.iter().enumerate() {
        let expected = numbers.contains(&number);
        assert!(if expected { count >= OFTEN } else { count == 0 }, "number {number}: {counts:?}");
    }
}

fn number_of(case: &Case) -> u64 {
    let integer = match case {
        Case::Answers { job, out_len } => exported::answers(job, &mut vec![0; *out_len]),
        Case::Check { circuit, public, query } => exported::check(circuit, public, query),
    };
    integer % 256
}

#[test]
fn the_program_gives_each_of_its_numbers() {
    let first_number = |bytes: Vec<u8>| {
        let output = second::job::run(&bytes);
        output.split(' ').next().unwrap().parse().unwrap()
    };
    let counts = tally((0..2000).map(|index| first_number(job(1, index))));
    exactly_these_often(counts, &[0, 1, 2, 3, 4, 5, 6, 7, 10, 11, 12, 14]);
}

#[test]
fn exported_answers_gives_each_of_its_numbers() {
    let counts = tally((0..4000).step_by(2).map(|index| number_of(&case(2, index))));
    exactly_these_often(counts, &[0, 1, 2, 3, 4, 5, 6, 7, 8, 10, 11, 12, 14]);
}

#[test]
fn exported_check_gives_each_of_its_numbers() {
    let counts = tally((1..5000).step_by(2).map(|index| number_of(&case(2, index))));
    exactly_these_often(counts, &[0, 1, 2, 3, 4, 5, 6, 7, 11, 12, 13, 14]);
}

#[test]
fn the_other_calls_give_each_of_theirs() {
    let number = |index| number_and_place(&call(3, index).second(0).0).0.into();
    let counts = tally((0..5000).map(number));
    exactly_these_often(counts, &[0, 1, 2, 3, 4, 5, 6, 7, 8, 9, 10, 12, 13]);
}

#[test]
fn the_two_small_jobs_reach_every_program_number_by_themselves() {
    let counts = tally(systematic::cases().iter().map(number_of));
    for number in [0, 1, 2, 3, 4, 5, 6, 7, 8, 10, 11, 12, 13, 14] {
        assert!(counts[number] > 0, "number {number}: {counts:?}");
    }
}

#[test]
fn undamaged_jobs_are_answered_and_their_answers_accepted() {
    for index in 0..300 {
        let sketch = valid::sketch(&mut Chance::new(4, index));
        let mut out = [0; 16];
        assert_eq!(exported::answers(&to_bytes(&sketch.job_words()), &mut out), 0);
        let query = [to_bytes(&[sketch.point]), out.to_vec()].concat();
        let (circuit, public) = (to_bytes(&sketch.circuit_words()), to_bytes(&sketch.public_words()));
        assert_eq!(exported::check(&circuit, &public, &query), 0);
    }
}

#[test]
fn the_full_job_fills_the_longest_file() {
    let sketch = valid::full(&mut Chance::new(5, 0));
    let bytes = to_bytes(&sketch.job_words());
    assert_eq!(bytes.len(), 37_944);
    assert_eq!(exported::answers(&bytes, &mut [0; 16]), 0);
}

#[test]
fn sizes_reach_their_ends() {
    let circuits: Vec<Circuit> = (0..2000)
        .map(|index| valid::sketch(&mut Chance::new(6, index)).circuit_words())
        .map(|words| Circuit::read(&words).expect("valid"))
        .collect();
    for end in [1, 256] {
        assert!(circuits.iter().any(|c| c.m == end));
        assert!(circuits.iter().any(|c| c.n == end));
        assert!(circuits.iter().any(|c| c.q == end));
    }
    for matrix in 0..3 {
        assert!(circuits.iter().any(|c| c.sections[matrix].is_empty()));
        assert!(circuits.iter().any(|c| c.sections[matrix].len() >= 1020));
    }
}

#[test]
fn a_case_can_be_made_again_alone() {
    assert_eq!(job(7, 19), job(7, 19));
    assert_ne!(job(7, 19), job(7, 20));
    assert_ne!(job(7, 19), job(8, 19));
}
