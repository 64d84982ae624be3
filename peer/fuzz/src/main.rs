//! The function that libFuzzer calls, whose library has main. It is built by fuzz/run.
#![no_main]

use peer::compare::Compare;
use peer::fuzz::one_input;

/// # Safety
/// The bytes are there for their length.
#[unsafe(no_mangle)]
pub unsafe extern "C" fn LLVMFuzzerTestOneInput(data: *const u8, length: usize) -> i32 {
    // SAFETY: libFuzzer gives a buffer of this length, and a pointer that is not null where it isn't empty.
    let input = if length == 0 { &[] } else { unsafe { std::slice::from_raw_parts(data, length) } };
    if let Err(difference) = one_input(&mut Compare::default(), input) {
        println!("{}", difference.text);
        std::process::abort();
    }
    0
}
