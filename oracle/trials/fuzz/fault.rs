//! Says which lending was in work when the processor stopped the program.

use std::ffi::{c_int, c_void};
use std::sync::atomic::{AtomicU64, Ordering};

extern "C" {
    fn signal(number: c_int, handler: extern "C" fn(c_int)) -> usize;
    fn write(file: c_int, from: *const c_void, length: usize) -> isize;
    fn _exit(status: c_int) -> !;
}

/// The number of the lending in work.
pub static LENDING: AtomicU64 = AtomicU64::new(0);

/// Writes the number and ends with status 1.
extern "C" fn stopped(number: c_int) {
    let mut text = *b"lending 00000000000000000000: signal 00\n";
    let mut rest = LENDING.load(Ordering::Relaxed);
    for digit in text[8..28].iter_mut().rev() {
        *digit = b'0' + (rest % 10) as u8;
        rest /= 10;
    }
    text[37] = b'0' + (number / 10) as u8;
    text[38] = b'0' + (number % 10) as u8;
    // SAFETY: both may be called where a signal stopped the program; the text is as long as it says.
    unsafe {
        write(1, text.as_ptr().cast(), text.len());
        _exit(1)
    }
}

/// Watches for an illegal instruction, a forbidden address, a bus or an arithmetic fault.
pub fn watch() {
    for number in [4, 7, 8, 11] {
        // SAFETY: the handler calls only what a handler may call.
        unsafe { signal(number, stopped) };
    }
}
