//! Times each polynomial loop beside the same algorithm in Rust, in one process, and prints a table.
//! Both sides first have to give the same words. A time is the least of many short samples, taken in turn, over rounds of the whole table.
use second::field::{inverse, P};
use second::jobs::chance::Chance;
use std::hint::black_box;
use std::time::Instant;

const SIZES: [usize; 3] = [64, 128, 256];
const ROUNDS: usize = 8;
const SAMPLES: usize = 500;

mod proved {
    #[link(name = "bench_poly", kind = "static")]
    extern "C" {
        pub fn bench_value_at(f: *const u32, f_len: usize, s: u32) -> u32;
        pub fn bench_add_scaled(dst: *mut u32, dst_len: usize, k: u32, src: *const u32, src_len: usize);
        pub fn bench_times_factor(f: *mut u32, f_len: usize, x: u32);
        pub fn bench_target(z: *mut u32, z_len: usize);
        pub fn bench_product(f: *const u32, f_len: usize, g: *const u32, g_len: usize) -> u32;
        pub fn bench_divide(room: *mut u32, room_len: usize, low: *const u32, low_len: usize);
        pub fn bench_interpolate(v: *mut u32, v_len: usize);
        pub fn bench_add_divided(column: *mut u32, column_len: usize, k: u32, z: *const u32, z_len: usize, x: u32);
    }
}

mod rust {
    use super::P;

    fn word(d: u32, k: u32, s: u32) -> u32 {
        ((d as u64 + k as u64 * s as u64) % P) as u32
    }

    fn minus(x: u32) -> u32 {
        word(0, P as u32 - 1, x)
    }

    #[inline(never)]
    pub fn value_at(f: &[u32], s: u32) -> u32 {
        f.iter().rev().fold(0, |sum, &a| word(a, s, sum))
    }

    #[inline(never)]
    pub fn add_scaled(dst: &mut [u32], k: u32, src: &[u32]) {
        for (d, &s) in dst.iter_mut().zip(src) {
            *d = word(*d, k, s);
        }
    }

    #[inline(never)]
    pub fn times_factor(f: &mut [u32], x: u32) {
        let k = minus(x);
        for i in 1..f.len() {
            f[i - 1] = word(f[i - 1], k, f[i]);
        }
    }

    #[inline(never)]
    pub fn target(z: &mut [u32]) {
        let m = z.len() - 1;
        z[m] = 1;
        for i in (0..m).rev() {
            z[i] = 0;
            times_factor(&mut z[i..], i as u32 + 1);
        }
    }

    #[inline(never)]
    pub fn product(f: &[u32], g: &[u32]) -> [u32; 513] {
        let mut room = [0; 513];
        for (i, &a) in f.iter().enumerate() {
            add_scaled(&mut room[i..], a, g);
        }
        room
    }

    #[inline(never)]
    pub fn divide(room: &mut [u32], low: &[u32]) {
        for i in (0..room.len() - low.len()).rev() {
            let k = minus(room[i + low.len()]);
            add_scaled(&mut room[i..], k, low);
        }
    }

    #[inline(never)]
    pub fn interpolate(v: &mut [u32], inverses: &[u32; 256]) {
        for done in 1..v.len() {
            let minus_y = P as u32 - v[done - 1];
            for (a, &inverse) in v[done..].iter_mut().zip(inverses) {
                *a = word(0, *a + minus_y, inverse);
            }
        }
        for i in (0..v.len()).rev() {
            times_factor(&mut v[i..], i as u32 + 1);
        }
    }

    #[inline(never)]
    pub fn add_divided(column: &mut [u32], k: u32, z: &[u32], x: u32) {
        let mut running = 0;
        for (c, &a) in column.iter_mut().zip(&z[1..]).rev() {
            running = word(a, x, running);
            *c = word(*c, k, running);
        }
    }
}

/// Words below p that repeat from run to run.
fn words(n: usize, seed: u64) -> Vec<u32> {
    let mut chance = Chance::new(seed, 0);
    (0..n).map(|_| (chance.word() % P) as u32).collect()
}

/// The least nanoseconds of one call of each side.
fn least(mut ours: impl FnMut(), mut theirs: impl FnMut()) -> (f64, f64) {
    let calls = {
        let start = Instant::now();
        ours();
        (20_000 / (start.elapsed().as_nanos() as usize + 1)).clamp(1, 64)
    };
    let time = |side: &mut dyn FnMut()| {
        let start = Instant::now();
        for _ in 0..calls {
            side();
        }
        start.elapsed().as_nanos() as f64 / calls as f64
    };
    let mut best = (f64::MAX, f64::MAX);
    for _ in 0..SAMPLES {
        best.0 = best.0.min(time(&mut ours));
        best.1 = best.1.min(time(&mut theirs));
    }
    best
}

/// A kernel's name, and its times at a size: ours and Rust's.
type Kernel<'a> = (&'a str, Box<dyn Fn(usize) -> (f64, f64) + 'a>);

/// One row of the table: the times at each size, the ratio to Rust, and how the time grows.
fn row(name: &str, times: [(f64, f64); 3]) {
    print!("| {name} |");
    for (ours, theirs) in times {
        print!(" {:.2} | {:.2} |", ours / 1000.0, ours / theirs);
    }
    println!(" {:.2}, {:.2} |", times[1].0 / times[0].0, times[2].0 / times[1].0);
}

/// A kernel that changes a slice: both sides from the same words, to the same words, then timed.
fn changing(given: Vec<u32>, mut ours: impl FnMut(&mut [u32]), mut theirs: impl FnMut(&mut [u32])) -> (f64, f64) {
    let (mut a, mut b) = (given.clone(), given);
    ours(&mut a);
    theirs(&mut b);
    assert_eq!(a, b, "the two sides differ");
    least(|| ours(black_box(&mut a)), || theirs(black_box(&mut b)))
}

/// A kernel that gives a word.
fn giving(mut ours: impl FnMut() -> u32, mut theirs: impl FnMut() -> u32) -> (f64, f64) {
    assert_eq!(ours(), theirs(), "the two sides differ");
    least(
        || {
            black_box(ours());
        },
        || {
            black_box(theirs());
        },
    )
}

fn kernels(table: &[u32; 256]) -> Vec<Kernel<'_>> {
    use proved::*;
    vec![
        (
            "value",
            Box::new(move |m| {
                let f = words(m + 1, 1);
                giving(
                    || unsafe { bench_value_at(f.as_ptr(), f.len(), 12345) },
                    || rust::value_at(&f, 12345),
                )
            }),
        ),
        (
            "add-scaled",
            Box::new(move |m| {
                let src = words(m + 1, 2);
                changing(
                    words(m + 1, 3),
                    |d| unsafe { bench_add_scaled(d.as_mut_ptr(), d.len(), 54321, src.as_ptr(), src.len()) },
                    |d| rust::add_scaled(d, 54321, &src),
                )
            }),
        ),
        (
            "times (X − x)",
            Box::new(move |m| {
                changing(
                    words(m + 1, 12),
                    |f| unsafe { bench_times_factor(f.as_mut_ptr(), f.len(), 99) },
                    |f| rust::times_factor(f, 99),
                )
            }),
        ),
        (
            "target",
            Box::new(move |m| {
                changing(
                    words(m + 1, 4),
                    |z| unsafe { bench_target(z.as_mut_ptr(), z.len()) },
                    rust::target,
                )
            }),
        ),
        (
            "product",
            Box::new(move |m| {
                let (f, g) = (words(m + 1, 5), words(m + 1, 6));
                giving(
                    || unsafe { bench_product(f.as_ptr(), f.len(), g.as_ptr(), g.len()) },
                    || rust::product(&f, &g)[512],
                )
            }),
        ),
        (
            "division",
            Box::new(move |m| {
                let low = words(m, 7);
                changing(
                    words(2 * m + 1, 8),
                    |r| unsafe { bench_divide(r.as_mut_ptr(), r.len(), low.as_ptr(), low.len()) },
                    |r| rust::divide(r, &low),
                )
            }),
        ),
        (
            "interpolation",
            Box::new(move |m| {
                changing(
                    words(m, 9),
                    |v| unsafe { bench_interpolate(v.as_mut_ptr(), v.len()) },
                    |v| rust::interpolate(v, table),
                )
            }),
        ),
        (
            "Z / (X − i) added",
            Box::new(move |m| {
                let z = words(m + 1, 10);
                changing(
                    words(m, 11),
                    |c| unsafe { bench_add_divided(c.as_mut_ptr(), c.len(), 777, z.as_ptr(), z.len(), 3) },
                    |c| rust::add_divided(c, 777, &z, 3),
                )
            }),
        ),
    ]
}

fn main() {
    let table: [u32; 256] = std::array::from_fn(|i| inverse(i as u64 + 1) as u32);
    let kernels = kernels(&table);
    let mut best = vec![[(f64::MAX, f64::MAX); 3]; kernels.len()];
    for _ in 0..ROUNDS {
        for (times, (_, at)) in best.iter_mut().zip(&kernels) {
            for (time, m) in times.iter_mut().zip(SIZES) {
                let (ours, theirs) = at(m);
                *time = (time.0.min(ours), time.1.min(theirs));
            }
        }
    }
    println!("| kernel | m = 64, µs | to Rust | m = 128, µs | to Rust | m = 256, µs | to Rust | growth |");
    println!("|---|---|---|---|---|---|---|---|");
    for ((name, _), times) in kernels.iter().zip(best) {
        row(name, times);
    }
}
