//! The UTF-8 pass of Rust's standard library, in the shape of a check: refusal 2 and its place, or 0.
#![no_std]

/// # Safety
/// `input` is valid for `length` bytes, and `values` for four words.
#[no_mangle]
pub unsafe extern "C" fn std_check(input: *const u8, length: usize, values: *mut [usize; 4]) -> u32 {
    let bytes = core::slice::from_raw_parts(input, length);
    let (number, at) = core::str::from_utf8(bytes).map_or_else(|error| (2, error.valid_up_to()), |_| (0, 0));
    *values = [at, at, 0, 0];
    number
}

/// The library as it is shipped asks for it, and never calls it here.
#[no_mangle]
pub extern "C" fn rust_eh_personality() {}

#[panic_handler]
fn panic(_: &core::panic::PanicInfo) -> ! {
    loop {}
}
