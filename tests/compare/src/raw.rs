//! Calls of the C interface on slices: the only unsafe code of the comparison.
#![allow(unsafe_code)]

use crate::engine::RunArguments;
use station::raw::{station_check, station_flows, station_run};

pub fn check(book: &[u8], script: &[u8], out: &mut [u32]) {
    // SAFETY: each pointer and length is that of a live slice; `out` is borrowed mutably and so overlaps
    // no other.
    unsafe {
        station_check(
            book.as_ptr(),
            book.len(),
            script.as_ptr(),
            script.len(),
            out.as_mut_ptr(),
            out.len(),
        );
    }
}

pub fn flows(script: &[u8], flows: &mut [u32], out: &mut [u32]) {
    // SAFETY: each pointer and length is that of a live slice; `flows` and `out` are borrowed mutably and so
    // overlap no other.
    unsafe {
        station_flows(
            script.as_ptr(),
            script.len(),
            flows.as_mut_ptr(),
            flows.len(),
            out.as_mut_ptr(),
            out.len(),
        );
    }
}

pub fn run(book: &[u8], script: &[u8], arguments: RunArguments, out: &mut [u32]) {
    let RunArguments {
        reader,
        values,
        limit,
        list,
        log,
    } = arguments;
    // SAFETY: each pointer and length is that of a live slice; `values`, `log` and `out` are borrowed
    // mutably and so overlap no other.
    unsafe {
        station_run(
            book.as_ptr(),
            book.len(),
            script.as_ptr(),
            script.len(),
            reader,
            values.as_mut_ptr(),
            values.len(),
            limit,
            list.as_ptr(),
            list.len(),
            log.as_mut_ptr(),
            log.len(),
            out.as_mut_ptr(),
            out.len(),
        );
    }
}
