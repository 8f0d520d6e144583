//! Each call once, for `bench/count`: valgrind's callgrind collects in the call
//! alone and then writes what it counted, two files a row in the order of the
//! names.

use crate::rows::{Part, Rows, PARTS};
use std::arch::asm;

/// Callgrind's requests: 'C', 'T' and a number.
const DUMP: usize = 0x4354_0000;
const TOGGLE: usize = 0x4354_0002;

/// What valgrind takes for a request to itself; without it, nothing is done.
#[cfg(target_arch = "aarch64")]
fn ask(request: usize) {
    let words = [request, 0, 0, 0, 0, 0];
    unsafe {
        asm!("ror x12, x12, #3", "ror x12, x12, #13", "ror x12, x12, #51", "ror x12, x12, #61", "orr x10, x10, x10",
            inout("x3") 0usize => _, in("x4") words.as_ptr());
    }
}

#[cfg(target_arch = "x86_64")]
fn ask(request: usize) {
    let words = [request, 0, 0, 0, 0, 0];
    unsafe {
        asm!("rol rdi, 3", "rol rdi, 13", "rol rdi, 61", "rol rdi, 51", "xchg rbx, rbx",
            inout("rdx") 0usize => _, in("rax") words.as_ptr());
    }
}

fn counted(call: &mut dyn FnMut()) {
    ask(TOGGLE);
    call();
    ask(TOGGLE);
    ask(DUMP);
}

pub struct Count(&'static Part);

impl Count {
    pub fn run() {
        PARTS.iter().for_each(|part| (part.rows)(&mut Count(part)));
    }
}

impl Rows for Count {
    /// What only a first call does, such as a library's tables, is not counted.
    fn row(&mut self, what: &str, peer: &str, ours: &mut dyn FnMut(), theirs: &mut dyn FnMut()) {
        ours();
        theirs();
        counted(ours);
        counted(theirs);
        println!("{}|{}|{what}|{peer}", self.0.columns[0], self.0.columns[2]);
    }
}
