//! What the process keeps to itself: no core dump has its memory, and the memory
//! that holds secrets is not swapped out where the system allows it to be locked.
//! The standard library has none of the four calls.

use std::ffi::{c_int, c_void};
use std::sync::atomic::{AtomicBool, Ordering};

#[repr(C)]
struct Limit {
    now: u64,
    most: u64,
}

extern "C" {
    fn setrlimit(resource: c_int, limit: *const Limit) -> c_int;
    fn prctl(option: c_int, ...) -> c_int;
    fn mlockall(flags: c_int) -> c_int;
    fn munlockall() -> c_int;
    fn mlock(start: *const c_void, bytes: usize) -> c_int;
}

const RLIMIT_CORE: c_int = 4;
const PR_SET_DUMPABLE: c_int = 4;
/// What is there, what will come, and each page when it is touched.
const ALL: c_int = 1 | 2 | 4;

/// More memory than any command takes.
const MOST: usize = 1 << 26;

/// Whether everything is locked; else each buffer of secrets is locked by itself.
static LOCKED: AtomicBool = AtomicBool::new(false);

pub fn begin() {
    let none = Limit { now: 0, most: 0 };
    // SAFETY: the limit is of this frame, and the numbers stand for no memory.
    unsafe {
        setrlimit(RLIMIT_CORE, &none);
        prctl(PR_SET_DUMPABLE, 0usize, 0usize, 0usize, 0usize);
    }
    LOCKED.store(lock_all(), Ordering::SeqCst);
}

/// Locks all memory, and asks whether there is enough of it then: where a limit
/// forbids that, an allocation later on would end the program.
fn lock_all() -> bool {
    // SAFETY: neither call changes what memory holds.
    if unsafe { mlockall(ALL) } != 0 {
        return false;
    }
    let enough = Vec::<u8>::new().try_reserve_exact(MOST).is_ok();
    if !enough {
        // SAFETY: as above.
        unsafe { munlockall() };
    }
    enough
}

/// Locks a buffer where the whole is not locked. Where it may not be locked it is
/// used all the same.
pub fn lock<T>(entries: &[T]) {
    if !LOCKED.load(Ordering::SeqCst) && !entries.is_empty() {
        // SAFETY: pointer and length are those of one slice.
        unsafe { mlock(entries.as_ptr().cast(), size_of_val(entries)) };
    }
}

#[cfg(test)]
mod tests {
    use super::*;

    #[test]
    fn not_dumpable() {
        const PR_GET_DUMPABLE: c_int = 3;
        begin();
        // SAFETY: it only asks.
        assert_eq!(unsafe { prctl(PR_GET_DUMPABLE) }, 0);
    }
}
