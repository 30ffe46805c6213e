//! The product by the three functions that its archive exports.

#[cfg(product)]
mod linked {
    pub const LINKED: bool = true;

    extern "C" { // each slice as its pointer, then its length
        fn hempmallet_verdict(file: *const u8, file_len: usize) -> u64;
        fn hempmallet_mining(file: *const u8, file_len: usize, scratch: *mut u8, scratch_len: usize,
                             output: *mut u8, output_len: usize) -> u64;
        fn hempmallet_permit(file: *const u8, file_len: usize, list: *const u8, list_len: usize,
                             first: usize, second: usize) -> u64;
    }

    pub fn verdict(file: &[u8]) -> u64 {
        unsafe { hempmallet_verdict(file.as_ptr(), file.len()) }
    }

    pub fn mining(file: &[u8], scratch: &mut [u8], output: &mut [u8]) -> u64 {
        unsafe {
            hempmallet_mining(file.as_ptr(), file.len(), scratch.as_mut_ptr(), scratch.len(),
                              output.as_mut_ptr(), output.len())
        }
    }

    pub fn permit(file: &[u8], list: &[u8], first: usize, second: usize) -> u64 {
        unsafe { hempmallet_permit(file.as_ptr(), file.len(), list.as_ptr(), list.len(), first, second) }
    }
}

#[cfg(not(product))]
mod linked {
    pub const LINKED: bool = false;

    pub fn verdict(_: &[u8]) -> u64 {
        unreachable!("built without the product")
    }

    pub fn mining(_: &[u8], _: &mut [u8], _: &mut [u8]) -> u64 {
        unreachable!("built without the product")
    }

    pub fn permit(_: &[u8], _: &[u8], _: usize, _: usize) -> u64 {
        unreachable!("built without the product")
    }
}

pub use linked::{mining, permit, verdict, LINKED};
