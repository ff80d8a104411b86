//! An allocator for libcrypto that refuses one request for memory, counted from the moment when it is told to.

use std::ffi::c_void;
use std::os::raw::{c_char, c_int};
use std::ptr;
use std::sync::atomic::{AtomicIsize, Ordering};

/// How many allocations are granted yet; all, if it is negative.
static GRANTED: AtomicIsize = AtomicIsize::new(-1);

type Malloc = extern "C" fn(usize, *const c_char, c_int) -> *mut c_void;
type Realloc = extern "C" fn(*mut c_void, usize, *const c_char, c_int) -> *mut c_void;
type Free = extern "C" fn(*mut c_void, *const c_char, c_int);

extern "C" {
    fn CRYPTO_set_mem_functions(malloc: Malloc, realloc: Realloc, free: Free) -> c_int;
    fn malloc(size: usize) -> *mut c_void;
    fn realloc(at: *mut c_void, size: usize) -> *mut c_void;
    fn free(at: *mut c_void);
}

/// Whether this allocation is granted: so many are, one is not, and those behind it are again.
fn is_granted() -> bool {
    GRANTED.load(Ordering::Relaxed) < 0 || GRANTED.fetch_sub(1, Ordering::Relaxed) != 0
}

extern "C" fn rationed_malloc(size: usize, _: *const c_char, _: c_int) -> *mut c_void {
    if is_granted() {
        // Any size may be asked for.
        unsafe { malloc(size) }
    } else {
        ptr::null_mut()
    }
}

extern "C" fn rationed_realloc(
    at: *mut c_void,
    size: usize,
    _: *const c_char,
    _: c_int,
) -> *mut c_void {
    if is_granted() {
        // What libcrypto hands back came from `malloc` or `realloc`.
        unsafe { realloc(at, size) }
    } else {
        ptr::null_mut()
    }
}

extern "C" fn rationed_free(at: *mut c_void, _: *const c_char, _: c_int) {
    // As above.
    unsafe { free(at) }
}

/// Gives the allocator to libcrypto, which takes it only before it has allocated anything.
pub fn take() {
    // The functions have the forms that libcrypto wants.
    let taken =
        unsafe { CRYPTO_set_mem_functions(rationed_malloc, rationed_realloc, rationed_free) };
    assert_eq!(taken, 1);
}

/// What is answered if so many allocations are granted, the next one is refused, and those behind it are granted; and whether it came to
/// that.
pub fn refused_behind<T>(granted: usize, call: impl FnOnce() -> T) -> (T, bool) {
    GRANTED.store(granted as isize, Ordering::Relaxed);
    let answer = call();
    let left = GRANTED.swap(-1, Ordering::Relaxed);
    (answer, left < 0)
}
