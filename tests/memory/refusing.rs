//! A library that is loaded before libc (`LD_PRELOAD`) and refuses one request for memory, the one whose number the
//! environment's `REFUSED` has, counted from 1. `tests/memory/run` loads it into the programs that rt has proved, which
//! ask libc by `malloc` and `realloc` alone.
#![no_std]

use core::ffi::{c_char, c_ulong, c_void};
use core::ptr::null_mut;
use core::sync::atomic::{AtomicU64, Ordering::Relaxed};

unsafe extern "C" {
    fn __libc_malloc(size: usize) -> *mut c_void;
    fn __libc_realloc(memory: *mut c_void, size: usize) -> *mut c_void;
    fn getenv(name: *const c_char) -> *const c_char;
    fn strtoul(text: *const c_char, end: *mut *mut c_char, base: i32) -> c_ulong;
}

static REQUESTS: AtomicU64 = AtomicU64::new(0);

// Counts a request, and tells whether it is refused.
fn is_refused() -> bool {
    let number = REQUESTS.fetch_add(1, Relaxed) + 1;
    // SAFETY: both names end with a 0, and no thread changes the environment.
    unsafe {
        let refused = getenv(c"REFUSED".as_ptr());
        !refused.is_null() && strtoul(refused, null_mut(), 10) == number
    }
}

/// # Safety
///
/// As in C.
#[unsafe(no_mangle)]
pub unsafe extern "C" fn malloc(size: usize) -> *mut c_void {
    if is_refused() {
        return null_mut();
    }
    // SAFETY: as in C.
    unsafe { __libc_malloc(size) }
}

/// # Safety
///
/// As in C.
#[unsafe(no_mangle)]
pub unsafe extern "C" fn realloc(memory: *mut c_void, size: usize) -> *mut c_void {
    if is_refused() {
        return null_mut();
    }
    // SAFETY: as in C.
    unsafe { __libc_realloc(memory, size) }
}

#[panic_handler]
fn end(_: &core::panic::PanicInfo) -> ! {
    loop {}
}
