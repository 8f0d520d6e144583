//! Botan's NewHope, SHAKE-128 and SHA3-256, as `botan.cpp` hands them on.

use crate::grown::Random;
use std::ffi::c_void;

mod raw {
    use super::c_void;
    extern "C" {
        pub fn botan_secret() -> *mut c_void;
        pub fn botan_offer(boring: bool, seed: *const u8, random: *const u8, secret: *mut c_void, message: *mut u8);
        pub fn botan_reply(boring: bool, random: *const u8, opening: *const u8, message: *mut u8, key: *mut u8);
        pub fn botan_finish(boring: bool, secret: *const c_void, reply: *const u8, key: *mut u8);
        pub fn botan_sha3_256(input: *const u8, n: usize, out: *mut u8);
        pub fn botan_shake128(input: *const u8, n: usize, out: *mut u8, many: bool);
        pub fn botan_stream(seed: *const u8);
        pub fn botan_more(out: *mut u8, n: usize);
    }
}

/// One end's secret, kept for the whole run.
pub struct Botan<'a> {
    boring: bool,
    random: &'a Random,
    secret: *mut c_void,
}

impl Botan<'_> {
    /// By SHAKE-128 and SHA-3, or by AES-128 and SHA-256.
    pub fn new(boring: bool, random: &Random) -> Botan<'_> {
        Botan { boring, random, secret: unsafe { raw::botan_secret() } }
    }

    pub fn offer(&self, seed: &[u8; 32], message: &mut [u8; 1824]) {
        unsafe { raw::botan_offer(self.boring, seed.as_ptr(), self.random.initiator.as_ptr(), self.secret, message.as_mut_ptr()) }
    }

    /// One for each seed; s and e are the same in all.
    pub fn openings(&self, seeds: &[[u8; 32]]) -> Vec<[u8; 1824]> {
        let mut openings = vec![[0; 1824]; seeds.len()];
        openings.iter_mut().zip(seeds).for_each(|(opening, seed)| self.offer(seed, opening));
        openings
    }

    pub fn reply(&self, opening: &[u8; 1824], message: &mut [u8; 2048], key: &mut [u8; 32]) {
        unsafe { raw::botan_reply(self.boring, self.random.replier.as_ptr(), opening.as_ptr(), message.as_mut_ptr(), key.as_mut_ptr()) }
    }

    pub fn finish(&self, reply: &[u8; 2048], key: &mut [u8; 32]) {
        unsafe { raw::botan_finish(self.boring, self.secret, reply.as_ptr(), key.as_mut_ptr()) }
    }
}

pub fn sha3_256(input: &[u8], out: &mut [u8]) {
    assert!(out.len() == 32);
    unsafe { raw::botan_sha3_256(input.as_ptr(), input.len(), out.as_mut_ptr()) }
}

pub fn shake128(input: &[u8], out: &mut [u8]) {
    assert!(out.len() == 32 || out.len() == 65536);
    unsafe { raw::botan_shake128(input.as_ptr(), input.len(), out.as_mut_ptr(), out.len() == 65536) }
}

/// SHAKE-128 of a seed, in pieces; there is one at a time.
pub struct Stream;

impl Stream {
    pub fn of(seed: &[u8; 32]) -> Stream {
        unsafe { raw::botan_stream(seed.as_ptr()) }
        Stream
    }

    pub fn more(&mut self, out: &mut [u8]) {
        unsafe { raw::botan_more(out.as_mut_ptr(), out.len()) }
    }
}
