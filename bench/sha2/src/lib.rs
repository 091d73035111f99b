//! Rust's `sha2`, its soft code, in the shape of sha256.h.
#![no_std]
use sha2::{Digest, Sha256};

#[panic_handler]
fn panic(_: &core::panic::PanicInfo) -> ! {
    loop {}
}

/// # Safety
/// `m` has `n` bytes and `out` 32.
#[no_mangle]
pub unsafe extern "C" fn sha256(out: *mut u8, m: *const u8, n: usize) {
    let d = Sha256::digest(core::slice::from_raw_parts(m, n));
    core::ptr::copy_nonoverlapping(d.as_ptr(), out, 32);
}
