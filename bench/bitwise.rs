//! The check sum bit by bit, in the form of `crc32` of frame.rs, built by rustc as the original is: what the port's is timed against.
#![no_std]

#[panic_handler]
fn panic(_: &core::panic::PanicInfo) -> ! {
    loop {}
}

/// # Safety
/// `bytes` points at `len` bytes.
#[no_mangle]
pub unsafe extern "C" fn bitwise(bytes: *const u8, len: usize) -> u32 {
    let mut register = u32::MAX;
    for &byte in core::slice::from_raw_parts(bytes, len) {
        register ^= u32::from(byte);
        for _ in 0..8 {
            register = register >> 1 ^ 0xEDB8_8320 & (register & 1).wrapping_neg();
        }
    }
    !register
}
