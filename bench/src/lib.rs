//! The twin as a library with the console's three functions, so that tests/run_console.py can be run on it.

#![allow(dead_code)] // modules are shared with the benchmarks

mod house;
mod reply;
mod rules;
mod twin;

/// The bytes lent by a pointer and a length.
unsafe fn lent<'a>(bytes: *const u8, length: usize) -> &'a [u8] {
    if length == 0 { &[] } else { std::slice::from_raw_parts(bytes, length) }
}

unsafe fn lent_mut<'a>(bytes: *mut u8, length: usize) -> &'a mut [u8] {
    if length == 0 { &mut [] } else { std::slice::from_raw_parts_mut(bytes, length) }
}

#[no_mangle]
pub unsafe extern "C" fn hempmallet_verdict(file: *const u8, file_len: usize) -> u64 {
    reply::verdict(lent(file, file_len))
}

#[no_mangle]
pub unsafe extern "C" fn hempmallet_mining(file: *const u8, file_len: usize, scratch: *mut u8, scratch_len: usize,
                                           output: *mut u8, output_len: usize) -> u64 {
    reply::mining(lent(file, file_len), lent_mut(scratch, scratch_len), lent_mut(output, output_len))
}

#[no_mangle]
pub unsafe extern "C" fn hempmallet_permit(file: *const u8, file_len: usize, list: *const u8, list_len: usize,
                                           first: usize, second: usize) -> u64 {
    reply::permit(lent(file, file_len), lent(list, list_len), first, second)
}
