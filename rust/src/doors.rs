//! The functions of librillmoth.a, as include/rillmoth.h has them, over slices. All that is not safe is here.
//!
//! A slice of Rust is what the library asks for: its elements may be read, and no slice that may be written to lies over another. Each
//! function that answers a bool answers whether the memory for a session, for the results, for a listing or for the standard box's rows was
//! long enough.
#![allow(unsafe_code)]

use crate::{Bounds, Table};

mod foreign {
    #[link(name = "rillmoth", kind = "static")]
    extern "C" {
        pub fn rillmoth_standard(rows: *mut u8, rows_count: usize) -> bool;
        pub fn rillmoth_open(
            rows: *const u8,
            rows_count: usize,
            states: usize,
            inputs: usize,
            outputs: usize,
            waiting: usize,
            losses: usize,
            words: *mut u64,
            words_count: usize,
            bytes: *mut u8,
            bytes_count: usize,
            results: *mut u64,
            results_count: usize,
        ) -> bool;
        pub fn rillmoth_feed(
            words: *mut u64,
            words_count: usize,
            bytes: *mut u8,
            bytes_count: usize,
            event: u8,
            results: *mut u64,
            results_count: usize,
        ) -> bool;
        pub fn rillmoth_run(
            rows: *const u8,
            rows_count: usize,
            states: usize,
            inputs: usize,
            outputs: usize,
            waiting: usize,
            losses: usize,
            trace: *const u8,
            trace_count: usize,
            out: *mut u8,
            out_count: usize,
            results: *mut u64,
            results_count: usize,
        ) -> bool;
        pub fn rillmoth_read(
            file: *const u8,
            file_count: usize,
            rows: *mut u8,
            rows_count: usize,
            events: *mut u8,
            events_count: usize,
            results: *mut u64,
            results_count: usize,
        ) -> bool;
        pub fn rillmoth_write(
            source: usize,
            rows: *const u8,
            rows_count: usize,
            states: usize,
            inputs: usize,
            outputs: usize,
            waiting: usize,
            losses: usize,
            trace: *const u8,
            trace_count: usize,
            out: *mut u8,
            out_count: usize,
            results: *mut u64,
            results_count: usize,
        ) -> bool;
        pub fn rillmoth_import(
            capture: *const u8,
            capture_count: usize,
            events: *mut u8,
            events_count: usize,
            results: *mut u64,
            results_count: usize,
        ) -> bool;
        pub fn rillmoth_hand(
            capture: *const u8,
            capture_count: usize,
            place: usize,
            results: *mut u64,
            results_count: usize,
        ) -> bool;
        pub fn rillmoth_rebind(
            file: *const u8,
            file_count: usize,
            waiting: usize,
            losses: usize,
            out: *mut u8,
            out_count: usize,
            results: *mut u64,
            results_count: usize,
        ) -> bool;
        pub fn rillmoth_retrace(
            file: *const u8,
            file_count: usize,
            trace: *const u8,
            trace_count: usize,
            out: *mut u8,
            out_count: usize,
            results: *mut u64,
            results_count: usize,
        ) -> bool;
        pub fn rillmoth_mend(
            file: *const u8,
            file_count: usize,
            out: *mut u8,
            out_count: usize,
            results: *mut u64,
            results_count: usize,
        ) -> bool;
        pub fn rillmoth_listing(
            file: *const u8,
            file_count: usize,
            length: usize,
            out: *mut u8,
            out_count: usize,
            results: *mut u64,
            results_count: usize,
        ) -> bool;
        pub fn rillmoth_list(input: i32, output: i32) -> u8;
        pub fn rillmoth_version() -> u32;
    }
}

/// Every memory that this crate lends is as long as the library asks, so no function has a reason to answer false.
pub fn fits(answer: bool) {
    assert!(answer, "librillmoth.a asks for more memory than this version lends");
}

pub fn standard(rows: &mut [u8]) -> bool {
    unsafe { foreign::rillmoth_standard(rows.as_mut_ptr(), rows.len()) }
}

pub fn open(table: &Table, bounds: Bounds, words: &mut [u64], bytes: &mut [u8], results: &mut [u64]) -> bool {
    unsafe {
        foreign::rillmoth_open(
            table.rows.as_ptr(),
            table.rows.len(),
            table.states,
            table.inputs,
            table.outputs,
            bounds.waiting,
            bounds.losses,
            words.as_mut_ptr(),
            words.len(),
            bytes.as_mut_ptr(),
            bytes.len(),
            results.as_mut_ptr(),
            results.len(),
        )
    }
}

pub fn feed(words: &mut [u64], bytes: &mut [u8], event: u8, results: &mut [u64]) -> bool {
    unsafe {
        foreign::rillmoth_feed(
            words.as_mut_ptr(),
            words.len(),
            bytes.as_mut_ptr(),
            bytes.len(),
            event,
            results.as_mut_ptr(),
            results.len(),
        )
    }
}

pub fn run(table: &Table, bounds: Bounds, trace: &[u8], out: &mut [u8], results: &mut [u64]) -> bool {
    unsafe {
        foreign::rillmoth_run(
            table.rows.as_ptr(),
            table.rows.len(),
            table.states,
            table.inputs,
            table.outputs,
            bounds.waiting,
            bounds.losses,
            trace.as_ptr(),
            trace.len(),
            out.as_mut_ptr(),
            out.len(),
            results.as_mut_ptr(),
            results.len(),
        )
    }
}

pub fn read(file: &[u8], rows: &mut [u8], events: &mut [u8], results: &mut [u64]) -> bool {
    unsafe {
        foreign::rillmoth_read(
            file.as_ptr(),
            file.len(),
            rows.as_mut_ptr(),
            rows.len(),
            events.as_mut_ptr(),
            events.len(),
            results.as_mut_ptr(),
            results.len(),
        )
    }
}

pub fn write(source: usize, table: &Table, bounds: Bounds, trace: &[u8], out: &mut [u8], results: &mut [u64]) -> bool {
    unsafe {
        foreign::rillmoth_write(
            source,
            table.rows.as_ptr(),
            table.rows.len(),
            table.states,
            table.inputs,
            table.outputs,
            bounds.waiting,
            bounds.losses,
            trace.as_ptr(),
            trace.len(),
            out.as_mut_ptr(),
            out.len(),
            results.as_mut_ptr(),
            results.len(),
        )
    }
}

pub fn import(capture: &[u8], events: &mut [u8], results: &mut [u64]) -> bool {
    unsafe {
        foreign::rillmoth_import(
            capture.as_ptr(),
            capture.len(),
            events.as_mut_ptr(),
            events.len(),
            results.as_mut_ptr(),
            results.len(),
        )
    }
}

pub fn hand(capture: &[u8], place: usize, results: &mut [u64]) -> bool {
    unsafe { foreign::rillmoth_hand(capture.as_ptr(), capture.len(), place, results.as_mut_ptr(), results.len()) }
}

pub fn rebind(file: &[u8], bounds: Bounds, out: &mut [u8], results: &mut [u64]) -> bool {
    unsafe {
        foreign::rillmoth_rebind(
            file.as_ptr(),
            file.len(),
            bounds.waiting,
            bounds.losses,
            out.as_mut_ptr(),
            out.len(),
            results.as_mut_ptr(),
            results.len(),
        )
    }
}

pub fn retrace(file: &[u8], trace: &[u8], out: &mut [u8], results: &mut [u64]) -> bool {
    unsafe {
        foreign::rillmoth_retrace(
            file.as_ptr(),
            file.len(),
            trace.as_ptr(),
            trace.len(),
            out.as_mut_ptr(),
            out.len(),
            results.as_mut_ptr(),
            results.len(),
        )
    }
}

pub fn mend(file: &[u8], out: &mut [u8], results: &mut [u64]) -> bool {
    unsafe {
        foreign::rillmoth_mend(
            file.as_ptr(),
            file.len(),
            out.as_mut_ptr(),
            out.len(),
            results.as_mut_ptr(),
            results.len(),
        )
    }
}

pub fn listing(file: &[u8], length: usize, out: &mut [u8], results: &mut [u64]) -> bool {
    unsafe {
        foreign::rillmoth_listing(
            file.as_ptr(),
            file.len(),
            length,
            out.as_mut_ptr(),
            out.len(),
            results.as_mut_ptr(),
            results.len(),
        )
    }
}

pub fn version() -> u32 {
    unsafe { foreign::rillmoth_version() }
}

pub fn list(input: i32, output: i32) -> u8 {
    unsafe { foreign::rillmoth_list(input, output) }
}
