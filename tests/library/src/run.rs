//! The outer door, hub_run.

use std::ptr;

extern "C" {
    fn hub_run(
        table: *const u8,
        table_length: usize,
        requests: *const u8,
        requests_length: usize,
        answers: *mut u8,
        answers_length: usize,
        values: *mut u8,
        values_length: usize,
    ) -> i64;
}

/// A whole run; an empty slice is lent as a dangling pointer with length 0.
pub fn run(table: &[u8], requests: &[u8], answers: &mut [u8], values: &mut [u8]) -> i64 {
    // SAFETY: the four slices are live and apart for the length of the call.
    unsafe {
        hub_run(
            table.as_ptr(),
            table.len(),
            requests.as_ptr(),
            requests.len(),
            answers.as_mut_ptr(),
            answers.len(),
            values.as_mut_ptr(),
            values.len(),
        )
    }
}

/// A whole run as a C host may ask for it: each empty slice is a null pointer.
pub fn run_with_null(table: &[u8], requests: &[u8], answers: &mut [u8], values: &mut [u8]) -> i64 {
    // SAFETY: as in `run`; a null pointer comes with length 0 only.
    unsafe {
        hub_run(
            or_null(table),
            table.len(),
            or_null(requests),
            requests.len(),
            or_null_mut(answers),
            answers.len(),
            or_null_mut(values),
            values.len(),
        )
    }
}

pub(crate) fn or_null(bytes: &[u8]) -> *const u8 {
    if bytes.is_empty() {
        ptr::null()
    } else {
        bytes.as_ptr()
    }
}

pub(crate) fn or_null_mut(bytes: &mut [u8]) -> *mut u8 {
    if bytes.is_empty() {
        ptr::null_mut()
    } else {
        bytes.as_mut_ptr()
    }
}
