//! The library's two calls, as C declares them, and a thin safe wrapper over slices.
//!
//! Assumed: the archive liblink.a has these two functions with these signatures. Nothing else of it is used. With
//! `--cfg stand_in` the two functions are those of stand_in.rs instead, so that the tests can be tried on a watch that is wrong.

use std::hint::black_box;

#[cfg_attr(not(stand_in), link(name = "link", kind = "static"))]
extern "C" {
    fn watch_start(
        table: *const u8,
        table_len: usize,
        rows: u64,
        depth: u64,
        work: *mut u64,
        work_len: usize,
        record: *mut u64,
        record_len: usize,
        answer: *mut u64,
        answer_len: usize,
    ) -> u64;

    fn watch_event(
        table: *const u8,
        table_len: usize,
        record: *mut u64,
        record_len: usize,
        work: *mut u64,
        work_len: usize,
        reports: *mut u32,
        reports_len: usize,
        byte: u8,
        answer: *mut u64,
        answer_len: usize,
    ) -> u64;
}

/// The start call. 0, or the refusal's number.
pub fn start(table: &[u8], rows: u64, depth: u64, work: &mut [u64], record: &mut [u64], answer: &mut [u64]) -> u64 {
    // Each pointer goes with the length of its slice, and Rust's borrows keep the slices apart.
    unsafe {
        watch_start(
            black_box(table.as_ptr()),
            table.len(),
            rows,
            depth,
            work.as_mut_ptr(),
            work.len(),
            record.as_mut_ptr(),
            record.len(),
            answer.as_mut_ptr(),
            answer.len(),
        )
    }
}

/// The call for one event byte. 0, or the refusal's number.
pub fn event(table: &[u8], record: &mut [u64], work: &mut [u64], reports: &mut [u32], byte: u8, answer: &mut [u64]) -> u64 {
    unsafe {
        watch_event(
            black_box(table.as_ptr()),
            table.len(),
            record.as_mut_ptr(),
            record.len(),
            work.as_mut_ptr(),
            work.len(),
            reports.as_mut_ptr(),
            reports.len(),
            byte,
            answer.as_mut_ptr(),
            answer.len(),
        )
    }
}
