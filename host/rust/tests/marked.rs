//! The rules' printed examples: marked lines a to m, job J with its five lines, and the run-only lines.

use second::calls::*;
use second::jobs::printed::{J, K, K1, W};
use second::refusal::{number_and_place, refuse};
use second::{assignment, job, words};

fn j() -> Vec<u8> {
    words::to_bytes(&J.job_words())
}

#[test]
fn a_target() {
    let mut out = [0; 3];
    assert_eq!(target(2, &mut out), Ok(()));
    assert_eq!(out, [2, 2013265918, 1]);
}

#[test]
fn b_column_3_of_a() {
    let mut out = [0; 2];
    assert_eq!(column(&K, 0, 3, &mut out), Ok(()));
    assert_eq!(out, [2, 2013265920]);
}

#[test]
fn c_column_1_of_b() {
    let mut out = [0; 2];
    assert_eq!(column(&K, 1, 1, &mut out), Ok(()));
    assert_eq!(out, [2013265919, 2]);
}

#[test]
fn all_columns_are_the_columns() {
    for matrix in 0..3 {
        let (mut all, mut one) = ([9; 8], [9; 2]);
        assert_eq!(columns(&K, matrix, &mut all), Ok(()));
        for j in 1..=4 {
            assert_eq!(column(&K, matrix, j, &mut one), Ok(()));
            assert_eq!(all[(j as usize - 1) * 2..j as usize * 2], one);
        }
    }
}

#[test]
fn d_plain_quotient() {
    let mut out = [9; 3];
    assert_eq!(quotient(&K, &W, [0, 0, 0], &mut out), Ok(()));
    assert_eq!(out, [12, 0, 0]);
}

#[test]
fn e_blinded_quotient() {
    let mut out = [9; 3];
    assert_eq!(quotient(&K, &W, [1, 2, 3], &mut out), Ok(()));
    assert_eq!(out, [8, 8, 2]);
}

#[test]
fn f_answers_at_point_0() {
    assert_eq!(answers(&K, &W, [1, 2, 3], 0), Ok([2013265920, 7, 24, 8]));
}

#[test]
fn g_private_3_10() {
    let w = [2, 1, 45, 2, 3, 10];
    assert_eq!(quotient(&K, &w, [1, 2, 3], &mut [0; 3]), refuse(10, 1));
    assert_eq!(answers(&K, &w, [1, 2, 3], 3), refuse(10, 1));
}

#[test]
fn h_public_1_46() {
    let w = [2, 1, 46, 2, 3, 9];
    assert_eq!(quotient(&K, &w, [1, 2, 3], &mut [0; 3]), refuse(10, 2));
    assert_eq!(answers(&K, &w, [1, 2, 3], 3), refuse(10, 2));
}

#[test]
fn i_quotient_of_k1() {
    let mut out = [9; 2];
    assert_eq!(quotient(&K1, &[1, 1, 1, 1], [1, 1, 0], &mut out), Ok(()));
    assert_eq!(out, [0, 1]);
}

#[test]
fn j_private_value_2() {
    assert_eq!(quotient(&K1, &[1, 1, 1, 2], [1, 1, 0], &mut [0; 2]), refuse(10, 1));
}

#[test]
fn k_division_check() {
    assert_eq!(division_check(&K, &W, [1, 2, 3], &[8, 8, 2]), Ok(()));
    assert_eq!(division_check(&K, &W, [1, 2, 3], &[8, 8, 3]), refuse(13, 0));
    // Row breakage is no refusal there: no candidate is then accepted.
    assert_eq!(division_check(&K, &[2, 1, 45, 2, 3, 10], [1, 2, 3], &[8, 8, 2]), refuse(13, 0));
}

#[test]
fn l_word_6_set_to_0() {
    let mut circuit = K;
    circuit[6] = 0;
    assert_eq!(column(&circuit, 0, 1, &mut [0; 2]), refuse(4, 4));
}

#[test]
fn m_words_7_to_9_set_to_1_3_1() {
    let mut circuit = K;
    circuit[7..10].copy_from_slice(&[1, 3, 1]);
    assert_eq!(column(&circuit, 0, 1, &mut [0; 2]), refuse(5, 7));
}

#[test]
fn job_j() {
    let expected = "0 0\n2 2013265918 1\n8 8 2\n17 7 2013265918 50\n0\n";
    assert_eq!(j().len(), 4 * 39);
    assert_eq!(job::run(&j()), expected);
}

#[test]
fn points_on_and_off_the_rows() {
    for point in [1, 2, 2013265921] {
        assert_eq!(answers(&K, &W, [1, 2, 3], point), refuse(11, 0));
        assert_eq!(answer_check(&K, &[2, 1, 45], point, [0; 4]), refuse(11, 0));
    }
    for point in [0, 3, 2013265920] {
        let four = answers(&K, &W, [1, 2, 3], point).unwrap();
        assert_eq!(answer_check(&K, &[2, 1, 45], point, four), Ok(()));
    }
}

#[test]
fn target_256_works_257_is_2() {
    let mut out = [0; 257];
    assert_eq!(target(256, &mut out), Ok(()));
    assert_eq!(out[256], 1);
    assert_eq!(target(257, &mut [0; 258]), refuse(2, 0));
    assert_eq!(target(0, &mut [0; 1]), refuse(2, 0));
}

#[test]
fn m_256_works_257_is_2_in_a_circuit() {
    let circuit = |m| [m, 1, 1, 0, 0, 0];
    let mut out = [7; 257];
    assert_eq!(quotient(&circuit(256), &[1, 1, 0], [0, 0, 0], &mut out), Ok(()));
    assert_eq!(out, [0; 257]);
    assert_eq!(quotient(&circuit(257), &[1, 1, 0], [0, 0, 0], &mut [7; 258]), refuse(2, 0));
}

#[test]
fn a_target_output_of_m_plus_2_words_is_8() {
    let mut out = [5; 4];
    assert_eq!(target(2, &mut out), refuse(8, 3));
    assert_eq!(out, [5; 4]);
}

#[test]
fn the_public_section_is_part_of_the_assignment() {
    assert_eq!(assignment::public_section(&K, &W), [2, 1, 45]);
    assert!(assignment::public_section(&K[..26], &W).is_empty());
    assert!(assignment::public_section(&K, &[2, 2, 45, 2, 3, 9]).is_empty());
    // Broken rows do not matter to it.
    assert_eq!(assignment::public_section(&K, &[2, 1, 46, 2, 3, 9]), [2, 1, 46]);
}

/// The order 9, 12, 11, 8, 10, 13 where two faults meet in one call.
#[test]
fn the_earlier_number_wins() {
    let (broken, p) = ([2, 1, 45, 2, 3, 10], 2013265921);
    assert_eq!(column(&K[..26], 3, 1, &mut [0; 2]), refuse(1, 26));
    assert_eq!(column(&K, 3, 1, &mut [0; 1]), refuse(9, 0));
    assert_eq!(column(&K, 0, 5, &mut [0; 2]), refuse(9, 0));
    assert_eq!(column(&K, 0, 0, &mut [0; 2]), refuse(9, 0));
    assert_eq!(columns(&K, 3, &mut [0; 8]), refuse(9, 0));
    assert_eq!(columns(&K, 2, &mut [0; 7]), refuse(8, 8));
    assert_eq!(quotient(&K, &broken, [0, p, p], &mut [0; 2]), refuse(12, 1));
    assert_eq!(quotient(&K, &broken, [0, 0, 0], &mut [0; 2]), refuse(8, 3));
    assert_eq!(quotient(&K, &[2, 0, p, 1, p, 0], [p, 0, 0], &mut [0; 2]), refuse(6, 0));
    assert_eq!(quotient(&K, &[2, 1, p, 2, p, 0], [p, 0, 0], &mut [0; 2]), refuse(7, 2));
    assert_eq!(quotient(&K, &[2, p + 1, 45, 2, p, 0], [p, 0, 0], &mut [0; 2]), refuse(7, 1));
    assert_eq!(quotient(&K, &[2, 1, 45, 2, 3, p], [p, 0, 0], &mut [0; 2]), refuse(7, 5));
    assert_eq!(answers(&K, &broken, [0, 0, p], 1), refuse(12, 2));
    assert_eq!(answers(&K, &broken, [0, 0, 0], 1), refuse(11, 0));
    assert_eq!(answer_check(&K, &[2, 1, 45], 1, [0, 0, 0, p]), refuse(12, 3));
    assert_eq!(answer_check(&K, &[2, 1], p, [p; 4]), refuse(6, 0));
    assert_eq!(division_check(&K, &broken, [0, 0, p], &[p]), refuse(12, 2));
    assert_eq!(division_check(&K, &broken, [0, 0, 0], &[0, p]), refuse(12, 4));
    assert_eq!(division_check(&K, &broken, [0, 0, 0], &[0, 0]), refuse(8, 3));
}

/// Every cut of K is 1 with the words given as place, one word more is too; J's own order is in `job`.
#[test]
fn cuts_of_the_circuit() {
    for length in 0..K.len() {
        let verdict = column(&K[..length], 0, 1, &mut [0; 2]);
        assert_eq!(number_and_place(&verdict), (1, length));
    }
    assert_eq!(column(&[&K[..], &[0]].concat(), 0, 1, &mut [0; 2]), refuse(1, 28));
}

/// The program names each fault of a file by its first line alone.
#[test]
fn first_lines_of_damaged_jobs() {
    let with = |index: usize, word: u32| {
        let mut words = words::from_bytes(&j());
        words[index] = word;
        job::run(&words::to_bytes(&words))
    };
    assert_eq!(job::run(&[]), "1 0\n");
    assert_eq!(job::run(&j()[..155]), "14 0\n");
    assert_eq!(job::run(&j()[..152]), "14 0\n");
    assert_eq!(job::run(&j()[..4 * 32]), "6 0\n");
    assert_eq!(job::run(&j()[..4 * 33]), "14 0\n");
    assert_eq!(job::run(&vec![0; 37_944]), "2 0\n");
    assert_eq!(job::run(&vec![0; 37_948]), "14 0\n");
    assert_eq!(with(0, 257), "2 0\n");
    assert_eq!(with(27, 3), "6 0\n");
    assert_eq!(with(28, 2), "7 1\n");
    assert_eq!(with(32, 2013265921), "7 5\n");
    assert_eq!(with(33, 4), "14 0\n");
    assert_eq!(with(36, u32::MAX), "12 2\n");
    assert_eq!(with(37, 2), "14 0\n");
    assert_eq!(with(38, 2), "11 0\n");
    assert_eq!(with(32, 10), "10 1\n");
}
