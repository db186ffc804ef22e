//! The product's two exported names over the second program. The environment variable STUB_FAULT picks one
//! wrong behaviour; a harness that passes with any of them set tests nothing.

use second::exported;
use std::slice::{from_raw_parts, from_raw_parts_mut};

fn fault(name: &str) -> bool {
    std::env::var_os("STUB_FAULT").map_or(false, |chosen| chosen == name)
}

/// A frame of its own, so that it is taken only for the fault.
fn go_deep() {
    #[inline(never)]
    fn large_frame() {
        let mut frame = [0u8; 400_000];
        frame.chunks_mut(1000).for_each(|part| unsafe { part.as_mut_ptr().write_volatile(1) });
    }
    if fault("deep") {
        large_frame();
    }
}

/// # Safety
/// Each pointer holds as many bytes as the length after it says, and `out` overlaps nothing.
#[no_mangle]
pub unsafe extern "C" fn rowprover_answers(
    job: *const u8,
    job_len: usize,
    out: *mut u8,
    out_len: usize,
) -> u64 {
    if fault("reads-past") {
        let _ = job.add(job_len).read_volatile();
    }
    if fault("writes-input") && job_len > 0 {
        (job as *mut u8).write_volatile(0);
    }
    if fault("writes-before") {
        (job.sub(1) as *mut u8).write_volatile(0);
    }
    let (job, out) = (from_raw_parts(job, job_len), from_raw_parts_mut(out, out_len));
    let result = exported::answers(job, out);
    if fault("dies") && result % 256 == 10 {
        std::process::abort();
    }
    if fault("touches") && result != 0 && out_len > 0 {
        out[0] ^= 1;
    }
    if fault("writes-past") {
        *out.as_mut_ptr().add(out_len) ^= 1;
    }
    if fault("writes-nothing") && result == 0 {
        out.fill(0);
    }
    if fault("answer") && result == 0 {
        out[12] ^= 1;
    }
    if fault("order") && result % 256 == 8 {
        // 10 before 8.
        return match exported::answers(job, &mut [0; 16]) {
            0 => result,
            row => row,
        };
    }
    go_deep();
    wrong_integer(result)
}

/// # Safety
/// Each pointer holds as many bytes as the length after it says.
#[no_mangle]
pub unsafe extern "C" fn rowprover_check(
    circuit: *const u8,
    circuit_len: usize,
    public_section: *const u8,
    public_len: usize,
    query: *const u8,
    query_len: usize,
) -> u64 {
    let circuit = from_raw_parts(circuit, circuit_len);
    let public = from_raw_parts(public_section, public_len);
    let result = exported::check(circuit, public, from_raw_parts(query, query_len));
    if fault("writes-query") && query_len > 0 {
        // The last byte, and only when the right result is there.
        let last = query.add(query_len - 1) as *mut u8;
        last.write_volatile(!last.read_volatile());
    }
    if fault("accepts") && result == 13 {
        return 0;
    }
    go_deep();
    wrong_integer(result)
}

fn wrong_integer(result: u64) -> u64 {
    match result {
        0 if fault("refuses") => 10 + 256,
        _ if fault("place") => result % 256,
        _ if fault("number") && result > 0 => result / 256 * 256 + 14,
        _ => result,
    }
}
