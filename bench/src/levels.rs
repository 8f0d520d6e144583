//! The library for plain x86-64 and that for x86-64-v3 in one program: the shared
//! ones, which `./native` writes beside the archives and the system's loader opens.

use crate::lent::Lent;
use crate::plain::Calls;
use std::ffi::{c_char, c_int, c_void, CString};
use std::mem::transmute;

#[link(name = "dl")]
extern "C" {
    fn dlopen(name: *const c_char, how: c_int) -> *mut c_void;
    fn dlsym(library: *mut c_void, name: *const c_char) -> *mut c_void;
}

/// All names are found at once, and no other library sees them.
const NOW: c_int = 2;

/// The levels of `./native`, and the folder below `target/native` that each has.
pub const LEVELS: [(&str, &str); 2] = [("x86-64", ""), ("x86-64-v3", "x86-64-v3/")];

type Noise = unsafe extern "C" fn(u32, *const u8, usize, *const u64, usize, *mut i32, usize, *mut u64, *mut u64) -> u32;
type Offer = unsafe extern "C" fn(
    u32, *const u32, usize, *const i32, usize, *const i32, usize, *const u8, usize, *mut u8, usize, *mut u64, *mut u64,
) -> u32;
type Reply = unsafe extern "C" fn(
    u32, *const u8, usize, *const u32, usize, *const i32, usize, *const i32, usize, *const i32, usize, *const u8, usize,
    *mut u8, usize, *mut u8, usize, *mut u8, usize, *mut u64, *mut u64, *mut u64, *mut u64,
) -> u32;
type Finish = unsafe extern "C" fn(
    u32, *const u8, usize, *const i32, usize, *mut u8, usize, *mut u8, usize, *mut u64, *mut u64, *mut u64, *mut u64,
    *mut u64,
) -> u32;
type Product = unsafe extern "C" fn(*const u32, usize, *const u32, usize, *mut u32, usize, *mut u32, usize, *mut u64, *mut u64) -> u32;
type Grow = unsafe extern "C" fn(u32, *const u8, usize, *mut u32, usize, *mut u64, *mut u64) -> u32;

/// The calls of one of them.
pub struct Level {
    noise: Noise,
    offer: Offer,
    reply: Reply,
    finish: Finish,
    product: Product,
    grow: Grow,
}

impl Level {
    /// None where the library was not written, as where the processor has no such level.
    pub fn open(folder: &str) -> Option<Level> {
        let path = format!("{}/../target/native/{folder}libwimmostry.so", env!("CARGO_MANIFEST_DIR"));
        let library = unsafe { dlopen(CString::new(path).ok()?.as_ptr(), NOW) };
        let found = |name: &str| {
            let name = CString::new(name).expect("no zero in it");
            let at = unsafe { dlsym(library, name.as_ptr()) };
            assert!(!at.is_null(), "the library has no {name:?}");
            at
        };
        if library.is_null() {
            return None;
        }
        Some(unsafe {
            Level {
                noise: transmute::<*mut c_void, Noise>(found("wim_noise")),
                offer: transmute::<*mut c_void, Offer>(found("wim_offer")),
                reply: transmute::<*mut c_void, Reply>(found("wim_reply")),
                finish: transmute::<*mut c_void, Finish>(found("wim_finish")),
                product: transmute::<*mut c_void, Product>(found("wim_product")),
                grow: transmute::<*mut c_void, Grow>(found("wim_grow")),
            }
        })
    }

    pub fn noise(&self, scheme: u32, bytes: &[u8], table: &[u64], out: &mut [i32]) {
        let [mut place, mut n] = [0; 2];
        let done = unsafe {
            (self.noise)(scheme, bytes.as_ptr(), bytes.len(), table.as_ptr(), table.len(), out.as_mut_ptr(), out.len(), &mut place, &mut n)
        };
        assert!(done == 0);
    }

    pub fn product(&self, a: &[u32], b: &[u32], out: &mut [u32], scratch: &mut [u32]) {
        let [mut place, mut n] = [0; 2];
        let done = unsafe {
            (self.product)(
                a.as_ptr(), a.len(), b.as_ptr(), b.len(), out.as_mut_ptr(), out.len(), scratch.as_mut_ptr(), scratch.len(), &mut place, &mut n,
            )
        };
        assert!(done == 0);
    }

    pub fn grow(&self, rule: u32, seed: &[u8], out: &mut [u32]) {
        let [mut place, mut n] = [0; 2];
        assert!(unsafe { (self.grow)(rule, seed.as_ptr(), seed.len(), out.as_mut_ptr(), out.len(), &mut place, &mut n) } == 0);
    }
}

/// The three calls of a level over what is lent.
pub struct Of<'a>(pub &'a Level, pub &'a Lent);

impl Calls for Of<'_> {
    fn offer(&self, message: &mut [u8]) {
        let Of(level, l) = self;
        let [mut place, mut n] = [0; 2];
        let done = unsafe {
            (level.offer)(
                l.number(), l.a.as_ptr(), l.a.len(), l.s.as_ptr(), l.s.len(), l.e.as_ptr(), l.e.len(), l.seed.as_ptr(), l.seed.len(),
                message.as_mut_ptr(), message.len(), &mut place, &mut n,
            )
        };
        assert!(done == 0);
    }

    fn reply(&self, opening: &[u8], message: &mut [u8], key: &mut [u8]) {
        let Of(level, l) = self;
        let ([mut place, mut n, mut key_n, mut digest_n], mut digest) = ([0; 4], [0; 32]);
        let done = unsafe {
            (level.reply)(
                l.number(), opening.as_ptr(), opening.len(), l.a.as_ptr(), l.a.len(), l.s1.as_ptr(), l.s1.len(), l.e1.as_ptr(), l.e1.len(),
                l.e2.as_ptr(), l.e2.len(), l.coins.as_ptr(), l.coins.len(), message.as_mut_ptr(), message.len(), key.as_mut_ptr(), key.len(),
                digest.as_mut_ptr(), digest.len(), &mut place, &mut n, &mut key_n, &mut digest_n,
            )
        };
        assert!(done == 0);
    }

    fn finish(&self, reply: &[u8], key: &mut [u8]) {
        let Of(level, l) = self;
        let ([mut place, mut key_n, mut digest_n, mut slack, mut index], mut digest) = ([0; 5], [0; 32]);
        let done = unsafe {
            (level.finish)(
                l.number(), reply.as_ptr(), reply.len(), l.s.as_ptr(), l.s.len(), key.as_mut_ptr(), key.len(), digest.as_mut_ptr(),
                digest.len(), &mut place, &mut key_n, &mut digest_n, &mut slack, &mut index,
            )
        };
        assert!(done == 0);
    }
}
