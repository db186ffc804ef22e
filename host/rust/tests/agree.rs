//! The harness: the second program passes it, and every wrong subject is caught.

use second::circuit::Circuit;
use second::exported;
use second::field::is_field_word;
use second::harness::{compare, Exports};
use second::jobs::cases::case;
use second::jobs::systematic;
use second::refusal::integer;
use second::words::from_bytes;

fn is_caught(subject: &mut dyn Exports) -> bool {
    let generated = (0..1500).map(|index| case(21, index));
    generated.chain(systematic::cases()).any(|case| compare(subject, &case).is_err())
}

/// The second program with one behaviour changed.
struct Wrong {
    answers: fn(u64, &[u8], &mut [u8]) -> u64,
    /// The integer, and the three slices.
    check: fn(u64, [&[u8]; 3]) -> u64,
}

impl Exports for Wrong {
    fn answers(&mut self, job: &[u8], out: &mut [u8]) -> Result<u64, String> {
        let integer = exported::answers(job, out);
        Ok((self.answers)(integer, job, out))
    }
    fn check(&mut self, circuit: &[u8], public: &[u8], query: &[u8]) -> Result<u64, String> {
        let integer = exported::check(circuit, public, query);
        Ok((self.check)(integer, [circuit, public, query]))
    }
}

const RIGHT: Wrong = Wrong { answers: |integer, _, _| integer, check: |integer, _| integer };

#[test]
fn the_unchanged_one_passes() {
    assert!(!is_caught(&mut { RIGHT }));
}

#[test]
fn a_wrong_answer_byte_is_caught() {
    let answers = |integer, _: &[u8], out: &mut [u8]| {
        if integer == 0 {
            out[15] ^= 0x80;
        }
        integer
    };
    assert!(is_caught(&mut Wrong { answers, ..RIGHT }));
}

#[test]
fn an_output_touched_on_refusal_is_caught() {
    let answers = |integer, _: &[u8], out: &mut [u8]| {
        if integer % 256 == 10 {
            out.fill(0);
        }
        integer
    };
    assert!(is_caught(&mut Wrong { answers, ..RIGHT }));
}

#[test]
fn eight_after_ten_is_caught() {
    let answers = |integer, job: &[u8], _: &mut [u8]| match exported::answers(job, &mut [0; 16]) {
        row if row % 256 == 10 && integer == 8 + 256 * 16 => row,
        _ => integer,
    };
    assert!(is_caught(&mut Wrong { answers, ..RIGHT }));
}

/// 12 at the lowest word above the field.
fn twelve(words: &[u32]) -> Option<u64> {
    words.iter().position(|&word| !is_field_word(word)).map(|at| 12 + 256 * at as u64)
}

/// The same among the answers of a query.
fn twelve_in(query: &[u8]) -> Option<u64> {
    from_bytes(query).get(1..).and_then(twelve)
}

/// The blinders and the point of a job that ends as it should.
fn tail(job: &[u8]) -> Option<([u32; 3], u32)> {
    let words = from_bytes(job);
    match words[words.len().saturating_sub(6)..] {
        [3, d1, d2, d3, 1, point] if job.len() % 4 == 0 => Some(([d1, d2, d3], point)),
        _ => None,
    }
}

/// Each exchanges two refusals, so it is caught only on a case that has both faults.
#[test]
fn answers_in_another_order_are_caught() {
    type Answers = fn(u64, &[u8], &mut [u8]) -> u64;
    let wrong: [(&str, Answers); 6] = [
        ("12 before 4", |integer, job, _| match tail(job) {
            Some((blinders, _)) if integer % 256 == 4 => twelve(&blinders).unwrap_or(integer),
            _ => integer,
        }),
        ("12 before 7", |integer, job, _| match tail(job) {
            Some((blinders, _)) if integer % 256 == 7 => twelve(&blinders).unwrap_or(integer),
            _ => integer,
        }),
        ("11 before 7", |integer, job, _| match tail(job) {
            Some((_, point)) if integer % 256 == 7 && !is_field_word(point) => 11,
            _ => integer,
        }),
        ("11 before 12", |integer, job, _| match tail(job) {
            Some((_, point)) if integer % 256 == 12 && !is_field_word(point) => 11,
            _ => integer,
        }),
        (
            "8 before 11",
            |integer, _, out| if integer == 11 && out.len() != 16 { 8 + 256 * 16 } else { integer },
        ),
        ("10 before 11", |integer, job, out| {
            let off_the_rows = [&job[..job.len().saturating_sub(4)], &[0; 4]].concat();
            match exported::answers(&off_the_rows, &mut out.to_vec()) {
                row if row % 256 == 10 && integer == 11 => row,
                _ => integer,
            }
        }),
    ];
    for (name, answers) in wrong {
        assert!(is_caught(&mut Wrong { answers, ..RIGHT }), "{name}");
    }
}

#[test]
fn checks_in_another_order_are_caught() {
    type Check = fn(u64, [&[u8]; 3]) -> u64;
    let wrong: [(&str, Check); 5] = [
        ("circuit before 14", |result, [circuit, _, _]| match Circuit::read(&from_bytes(circuit)) {
            Err(refusal) if result == 14 && circuit.len() % 4 == 0 => integer::<()>(&Err(refusal)),
            _ => result,
        }),
        ("12 before 4", |integer, [_, _, query]| match twelve_in(query) {
            Some(word) if integer % 256 == 4 => word,
            _ => integer,
        }),
        ("12 before 6", |integer, [_, _, query]| match twelve_in(query) {
            Some(word) if integer % 256 == 6 => word,
            _ => integer,
        }),
        ("12 before 7", |integer, [_, _, query]| match twelve_in(query) {
            Some(word) if integer % 256 == 7 => word,
            _ => integer,
        }),
        ("11 before 12", |integer, [_, _, query]| {
            if integer % 256 == 12 && !is_field_word(from_bytes(query)[0]) {
                11
            } else {
                integer
            }
        }),
    ];
    for (name, check) in wrong {
        assert!(is_caught(&mut Wrong { check, ..RIGHT }), "{name}");
    }
}

#[test]
fn a_lost_place_is_caught() {
    assert!(is_caught(&mut Wrong { answers: |integer, _, _| integer % 256, ..RIGHT }));
    assert!(is_caught(&mut Wrong { check: |integer, _| integer % 256, ..RIGHT }));
}

#[test]
fn accepting_everything_is_caught() {
    assert!(is_caught(&mut Wrong { check: |integer, _| if integer == 13 { 0 } else { integer }, ..RIGHT }));
}

#[test]
fn a_write_outside_the_output_is_caught() {
    let answers = |integer, _: &[u8], out: &mut [u8]| {
        // The harness keeps margins around the output: this lands in one.
        unsafe { *out.as_mut_ptr().add(out.len()) = 0 };
        integer
    };
    assert!(is_caught(&mut Wrong { answers, ..RIGHT }));
}
