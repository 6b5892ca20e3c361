// The model for C: what it expects of an exported call and of the listing, put where the caller says.
// build: rustc -O --crate-type staticlib -C panic=abort model_calls.rs
#[path = "../model/due.rs"]
mod due;
#[path = "../model/model.rs"]
mod model;

use std::slice::{from_raw_parts, from_raw_parts_mut};

/// Does to `out` what is due of a call and returns what is due. The calls are numbered as fuzz_calls.c has them; `first`
/// and `second` are the call's numbers in its order, `lent` the bytes that it may only read.
///
/// # Safety
/// The two slices are there for as many bytes as is said, and do not overlap.
#[no_mangle]
pub unsafe extern "C" fn model_call(
    call: u32,
    first: usize,
    second: usize,
    lent: *const u8,
    lent_bytes: usize,
    out: *mut u8,
    out_bytes: usize,
) -> u32 {
    let lent = from_raw_parts(lent, lent_bytes);
    let out = from_raw_parts_mut(out, out_bytes);
    let (result, bytes) = match call {
        0 => due::step(out, first as u8),
        1 => due::advance(out, first as u16),
        2 => due::pins(lent, out),
        3 => due::power_on(first, lent, out),
        4 => due::write(first, lent, out),
        5 => due::read(first, second, out),
        6 => due::commands(first, lent, out),
        _ => due::decode(lent, out),
    };
    out.copy_from_slice(&bytes);
    result
}

/// Writes the listing of a capture to `out` as far as it fits, and returns how long it is.
///
/// # Safety
/// The two slices are there for as many bytes as is said, and do not overlap.
#[no_mangle]
pub unsafe extern "C" fn model_listing(capture: *const u8, bytes: usize, out: *mut u8, out_bytes: usize) -> usize {
    let listing = model::listing(from_raw_parts(capture, bytes));
    let fits = listing.len().min(out_bytes);
    from_raw_parts_mut(out, fits).copy_from_slice(&listing[..fits]);
    listing.len()
}
