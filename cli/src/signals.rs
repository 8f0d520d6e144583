//! Temporary files that are overwritten and go away when the program is ended by
//! a signal. The standard library has nothing for signals, so some C functions are
//! declared here; the handler calls only what a handler may.

use std::ffi::{c_char, c_int, c_void, CString};
use std::fs::File;
use std::os::fd::AsRawFd;
use std::os::unix::ffi::OsStrExt;
use std::path::Path;
use std::ptr::null_mut;
use std::sync::atomic::{AtomicI32, AtomicPtr, AtomicU32, Ordering};

extern "C" {
    fn signal(number: c_int, handler: usize) -> usize;
    fn raise(number: c_int) -> c_int;
    fn unlink(path: *const c_char) -> c_int;
    fn lseek(file: c_int, offset: i64, from: c_int) -> i64;
    fn pwrite(file: c_int, bytes: *const c_void, n: usize, offset: i64) -> isize;
    fn fsync(file: c_int) -> c_int;
}

const DEFAULT: usize = 0;
const IGNORE: usize = 1;
/// From the end of a file.
const END: c_int = 2;

/// Hangup, interrupt, quit and terminate.
const ENDING: [c_int; 4] = [1, 2, 3, 15];
/// A file that grows over the limit: ignored, so that the write fails.
const TOO_LARGE: c_int = 25;

/// Room for more files than any command writes.
const ROOM: usize = 16;
static NAMES: [AtomicPtr<c_char>; ROOM] = [const { AtomicPtr::new(null_mut()) }; ROOM];
static HANDLES: [AtomicI32; ROOM] = [const { AtomicI32::new(-1) }; ROOM];

static ZEROS: [u8; 4096] = [0; 4096];

extern "C" fn end(number: c_int) {
    for (name, handle) in NAMES.iter().zip(&HANDLES) {
        let name = name.load(Ordering::SeqCst);
        if !name.is_null() {
            overwrite(handle.load(Ordering::SeqCst));
            // SAFETY: a name in the list is a C string that is never freed.
            unsafe { unlink(name) };
        }
    }
    // SAFETY: both may be called in a handler. The signal is let through when
    // the handler returns, and ends the program as it would have.
    unsafe {
        signal(number, DEFAULT);
        raise(number);
    }
}

/// Zeros over all that an open file holds.
fn overwrite(file: c_int) {
    // SAFETY: all three may be called in a handler, on a number that is no file too,
    // and the bytes are there for as long as the program.
    unsafe {
        let all = lseek(file, 0, END);
        let mut at = 0;
        while at < all {
            let now = ZEROS.len().min((all - at) as usize);
            let n = pwrite(file, ZEROS.as_ptr().cast(), now, at);
            if n <= 0 {
                break;
            }
            at += n as i64;
        }
        fsync(file);
    }
}

/// The ending signals that whoever started the program wants ignored, a bit each.
static IGNORED: AtomicU32 = AtomicU32::new(0);

/// From here on the listed files are removed when a signal ends the program.
pub fn guard() {
    // SAFETY: a handler is IGNORE or the function above.
    unsafe {
        signal(TOO_LARGE, IGNORE);
        for number in ENDING {
            if signal(number, end as extern "C" fn(c_int) as usize) == IGNORE {
                signal(number, IGNORE);
                IGNORED.fetch_or(1 << number, Ordering::SeqCst);
            }
        }
    }
}

/// From here on no signal ends the program: for the moment in which an answer
/// of several files is put in its place.
pub fn hold() {
    for number in ENDING {
        // SAFETY: ignoring a signal touches no memory.
        unsafe { signal(number, IGNORE) };
    }
}

/// All signals as they were.
pub fn free() {
    for number in ENDING {
        if IGNORED.load(Ordering::SeqCst) & 1 << number == 0 {
            // SAFETY: the system's own way touches no memory of ours.
            unsafe { signal(number, DEFAULT) };
        }
    }
}

/// A file to be overwritten and removed. Where its room is in the list, if there
/// was any.
pub struct Listed(Option<usize>);

/// The file has to stay open for as long as it is listed.
pub fn list(path: &Path, file: &File) -> Listed {
    let Ok(name) = CString::new(path.as_os_str().as_bytes()) else {
        return Listed(None);
    };
    let name = name.into_raw();
    for i in 0..ROOM {
        let put = NAMES[i].compare_exchange(null_mut(), name, Ordering::SeqCst, Ordering::SeqCst);
        if put.is_ok() {
            HANDLES[i].store(file.as_raw_fd(), Ordering::SeqCst);
            return Listed(Some(i));
        }
    }
    Listed(None)
}

impl Drop for Listed {
    /// The name stays in memory: the handler may just be reading it.
    fn drop(&mut self) {
        if let Some(i) = self.0 {
            HANDLES[i].store(-1, Ordering::SeqCst);
            NAMES[i].store(null_mut(), Ordering::SeqCst);
        }
    }
}
