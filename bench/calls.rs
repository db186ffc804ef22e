//! Times answers and check of an archive beside the plain second program and the linear method in C, in one process,
//! and prints a table. All sides first have to give the same. A sample is one call; a time is the least of many samples,
//! taken of the three sides in turn, over rounds of the whole table.
use second::{exported, jobs, words};
use std::hint::black_box;
use std::time::{Duration, Instant};

const SIZES: [usize; 4] = [32, 64, 128, 256];
const ROUNDS: usize = 3;
/// Samples are taken for this long, and at least so many.
const ROUND: Duration = Duration::from_millis(1000);
const SAMPLES: usize = 20;

/// A linked side: its two C functions as safe ones.
macro_rules! linked {
    ($side:ident, $answers:literal, $check:literal) => {
        mod $side {
            extern "C" {
                #[link_name = $answers]
                fn c_answers(job: *const u8, job_len: usize, out: *mut u8, out_len: usize) -> u64;
                #[link_name = $check]
                fn c_check(
                    circuit: *const u8,
                    circuit_len: usize,
                    public: *const u8,
                    public_len: usize,
                    query: *const u8,
                    query_len: usize,
                ) -> u64;
            }

            pub fn answers(job: &[u8], out: &mut [u8]) -> u64 {
                unsafe { c_answers(job.as_ptr(), job.len(), out.as_mut_ptr(), out.len()) }
            }

            pub fn check(circuit: &[u8], public: &[u8], query: &[u8]) -> u64 {
                let [c, p, q] = [circuit, public, query];
                unsafe { c_check(c.as_ptr(), c.len(), p.as_ptr(), p.len(), q.as_ptr(), q.len()) }
            }
        }
    };
}

linked!(archive, "rowprover_answers", "rowprover_check");
linked!(linear, "linear_answers", "linear_check");

type Answers = fn(&[u8], &mut [u8]) -> u64;
type Check = fn(&[u8], &[u8], &[u8]) -> u64;

/// Archive, plain second program, linear method.
const ANSWERS: [Answers; 3] = [archive::answers, exported::answers, linear::answers];
const CHECK: [Check; 3] = [archive::check, exported::check, linear::check];

/// The least microseconds of each side.
type Times = [f64; 3];

fn least(sides: [&dyn Fn() -> u64; 3], best: &mut Times) {
    let start = Instant::now();
    let mut samples = 0;
    while samples < SAMPLES || start.elapsed() < ROUND {
        for (side, best) in sides.iter().zip(best.iter_mut()) {
            let start = Instant::now();
            black_box(side());
            *best = best.min(start.elapsed().as_nanos() as f64 / 1000.0);
        }
        samples += 1;
    }
}

struct Case {
    job: Vec<u8>,
    circuit: Vec<u8>,
    public: Vec<u8>,
    query: Vec<u8>,
}

/// A full job, and the query with its answers; every side gives the same.
fn case(size: usize) -> Case {
    let sketch = jobs::full_job(size, size / 2);
    let [job, circuit, public] = [sketch.job_words(), sketch.circuit_words(), sketch.public_words()]
        .map(|part| words::to_bytes(&part));
    let [ours, plain, linear] = ANSWERS.map(|answers| {
        let mut out = [0; 16];
        assert_eq!(answers(black_box(&job), &mut out), 0, "a valid job is refused");
        out
    });
    assert!(ours == plain && ours == linear, "the sides differ");
    let query = [&sketch.point.to_le_bytes()[..], &ours].concat();
    for check in CHECK {
        assert_eq!(check(&circuit, &public, &query), 0, "right answers are refused");
    }
    Case { job, circuit, public, query }
}

fn time_answers(case: &Case, best: &mut Times) {
    let [ours, plain, linear] =
        ANSWERS.map(|answers| move || answers(black_box(&case.job), black_box(&mut [0; 16])));
    least([&ours, &plain, &linear], best);
}

fn time_check(case: &Case, best: &mut Times) {
    let [ours, plain, linear] =
        CHECK.map(|check| move || check(black_box(&case.circuit), &case.public, black_box(&case.query)));
    least([&ours, &plain, &linear], best);
}

fn rows(call: &str, times: &[Times; 4]) {
    let mut before = None;
    for (m, [ours, plain, linear]) in SIZES.iter().zip(times) {
        let growth = before.map_or(String::new(), |before: f64| format!("{:.2}", ours / before));
        println!(
            "| {call} | {m} | {ours:.1} | {growth} | {plain:.1} | {:.4} | {linear:.1} | {:.2} |",
            ours / plain,
            ours / linear
        );
        before = Some(*ours);
    }
}

fn main() {
    let cases = SIZES.map(case);
    let [mut answers, mut check] = [[[f64::MAX; 3]; 4]; 2];
    for _ in 0..ROUNDS {
        for (case, (answers, check)) in cases.iter().zip(answers.iter_mut().zip(&mut check)) {
            time_answers(case, answers);
            time_check(case, check);
        }
    }
    println!("| call | m = n | archive, µs | growth | plain, µs | to plain | linear, µs | to linear |");
    println!("|---|---|---|---|---|---|---|---|");
    rows("answers", &answers);
    rows("check", &check);
}
