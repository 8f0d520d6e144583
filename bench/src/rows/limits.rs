//! Each call beside what it cannot take less than, all measured in this run: the
//! bytes lent are read by a plain loop from a buffer of as many, again and again,
//! so that they lie in the same cache; products are made in registers, as wide as
//! the level that the archive is for has them; a permutation is that of the long SHAKE-128.

use super::by_rows::ByRows;
use super::calls::Exchange;
use super::products::{factors, halves};
use super::seeds::{sha3_256, shake128, Hash};
use super::Rows;
use crate::bounds::{self, Bounds, Work};
use crate::draw::Draw;
use crate::grown::seeds;
use crate::lent::{table, Lent};
use crate::ours::Ours;
use crate::plain::Calls;
use second::schemes::{Family, Scheme, SIX};
use std::arch::asm;
use std::hint::black_box;

/// Turns of the loop below, each of 12 instructions of as many products as a vector
/// holds: as many as hide that each has to wait for the one before it in its register.
const TURNS: usize = 1000;
const VECTOR: usize = if cfg!(target_feature = "avx2") { 16 } else { 8 };
const PRODUCTS: usize = TURNS * 12 * VECTOR;

/// AVX2, which x86-64-v3 has.
#[cfg(target_feature = "avx2")]
fn multiply() {
    unsafe {
        asm!("2:",
            "vpmaddwd ymm0, ymm0, ymm12", "vpmaddwd ymm1, ymm1, ymm12", "vpmaddwd ymm2, ymm2, ymm12", "vpmaddwd ymm3, ymm3, ymm12",
            "vpmaddwd ymm4, ymm4, ymm12", "vpmaddwd ymm5, ymm5, ymm12", "vpmaddwd ymm6, ymm6, ymm12", "vpmaddwd ymm7, ymm7, ymm12",
            "vpmaddwd ymm8, ymm8, ymm12", "vpmaddwd ymm9, ymm9, ymm12", "vpmaddwd ymm10, ymm10, ymm12", "vpmaddwd ymm11, ymm11, ymm12",
            "dec {turns}", "jnz 2b", turns = inout(reg) TURNS => _,
            out("ymm0") _, out("ymm1") _, out("ymm2") _, out("ymm3") _, out("ymm4") _, out("ymm5") _, out("ymm6") _,
            out("ymm7") _, out("ymm8") _, out("ymm9") _, out("ymm10") _, out("ymm11") _, options(nomem, nostack));
    }
}

/// SSE2, which every x86-64 processor has.
#[cfg(all(target_arch = "x86_64", not(target_feature = "avx2")))]
fn multiply() {
    unsafe {
        asm!("2:",
            "pmaddwd xmm0, xmm12", "pmaddwd xmm1, xmm12", "pmaddwd xmm2, xmm12", "pmaddwd xmm3, xmm12",
            "pmaddwd xmm4, xmm12", "pmaddwd xmm5, xmm12", "pmaddwd xmm6, xmm12", "pmaddwd xmm7, xmm12",
            "pmaddwd xmm8, xmm12", "pmaddwd xmm9, xmm12", "pmaddwd xmm10, xmm12", "pmaddwd xmm11, xmm12",
            "dec {turns}", "jnz 2b", turns = inout(reg) TURNS => _,
            out("xmm0") _, out("xmm1") _, out("xmm2") _, out("xmm3") _, out("xmm4") _, out("xmm5") _, out("xmm6") _,
            out("xmm7") _, out("xmm8") _, out("xmm9") _, out("xmm10") _, out("xmm11") _, options(nomem, nostack));
    }
}

/// NEON, which every such processor has.
#[cfg(target_arch = "aarch64")]
fn multiply() {
    unsafe {
        asm!("2:",
            "mla v0.8h, v16.8h, v17.8h", "mla v1.8h, v16.8h, v17.8h", "mla v2.8h, v16.8h, v17.8h", "mla v3.8h, v16.8h, v17.8h",
            "mla v4.8h, v16.8h, v17.8h", "mla v5.8h, v16.8h, v17.8h", "mla v6.8h, v16.8h, v17.8h", "mla v7.8h, v16.8h, v17.8h",
            "mla v18.8h, v16.8h, v17.8h", "mla v19.8h, v16.8h, v17.8h", "mla v20.8h, v16.8h, v17.8h", "mla v21.8h, v16.8h, v17.8h",
            "subs {turns}, {turns}, #1", "b.ne 2b", turns = inout(reg) TURNS => _,
            out("v0") _, out("v1") _, out("v2") _, out("v3") _, out("v4") _, out("v5") _, out("v6") _,
            out("v7") _, out("v18") _, out("v19") _, out("v20") _, out("v21") _, options(nomem, nostack));
    }
}

/// Sixteen at a time, so that no sum waits for another.
fn read(words: &[[u64; 16]]) -> [u64; 16] {
    words.iter().fold([0; 16], |sums, word| std::array::from_fn(|k| sums[k] ^ word[k]))
}

/// Blocks of 168 bytes, the last of them for what ends the input.
const PERMUTATIONS: usize = 65536 / 168 + 1;

struct Limits<'a> {
    rows: &'a mut dyn Rows,
    product: f64,
    permutation: f64,
}

impl Limits<'_> {
    fn of(rows: &mut dyn Rows) -> Limits<'_> {
        let product = rows.alone("products of 16 bits", &mut multiply) / PRODUCTS as f64;
        let (input, mut out) = (Draw::new(8).bytes(65536), [0; 32]);
        let permutation = rows.alone("permutations", &mut || shake128(&input, &mut out)) / PERMUTATIONS as f64;
        Limits { rows, product, permutation }
    }

    fn call(&mut self, what: &str, work: Work, code: &mut dyn FnMut()) {
        let own = self.rows.alone(what, code);
        let buffer = vec![[1; 16]; work.bytes.div_ceil(128)];
        let reading = self.rows.alone(&format!("{} bytes", work.bytes), &mut || _ = black_box(read(black_box(&buffer))));
        let bounds = Bounds::of(&work, reading, self.product, self.permutation);
        let (bound, which) = bounds.largest();
        let [bytes, products, permutations, time] = [bounds.bytes, bounds.products, bounds.permutations, own].map(|ns| format!("{ns:.0}"));
        self.rows.line(&[what.into(), bytes, products, permutations, which.into(), time, format!("{:.2}", own / bound)]);
    }

    fn scheme(&mut self, scheme: &'static Scheme) {
        let lent = Lent::drawn(scheme, 5);
        let (ours, name) = (Ours(&lent), scheme.name);
        let mut x = Exchange::of(scheme, &ours);
        self.call(&format!("{name}, Offer"), bounds::offer(scheme), &mut || ours.offer(&mut x.opening));
        self.call(&format!("{name}, Reply"), bounds::reply(scheme), &mut || ours.reply(&x.opening, &mut x.reply, &mut x.key));
        self.call(&format!("{name}, Finish"), bounds::finish(scheme), &mut || ours.finish(&x.reply, &mut x.peer));
        self.call(&format!("{name}, Bench"), bounds::bench(scheme), &mut || assert!(ours.bench()));
    }

    /// Whole rows at a time.
    fn by_rows(&mut self, scheme: &'static Scheme) {
        let lent = Lent::drawn(scheme, 5);
        let (mut x, name) = (Exchange::of(scheme, &Ours(&lent)), scheme.name);
        let mut rows = ByRows::of(&lent, scheme.n);
        let [offer, reply] = [bounds::offer(scheme), bounds::reply(scheme)].map(|whole| bounds::by_rows(scheme, whole));
        self.call(&format!("{name}, Offer by rows"), offer, &mut || rows.offer(&mut x.opening));
        self.call(&format!("{name}, Reply by rows"), reply, &mut || rows.reply(&x.opening, &mut x.reply, &mut x.key));
    }

    fn noise(&mut self, scheme: &Scheme) {
        let (bytes, table, mut out) = (Draw::new(6).bytes(second::noise::lengths(scheme)[0]), table(scheme), vec![0; scheme.secret_count()]);
        self.call(&format!("{}, Noise", scheme.name), bounds::noise(scheme), &mut || {
            assert!(wimmostry::raw::noise(scheme.number as u32, &bytes, &table, &mut out).is_ok());
        });
    }

    fn expand(&mut self, rule: u32) {
        let (streams, mut out) = ((0..64).map(|k| Draw::new(700 + k).bytes(4096)).collect::<Vec<_>>(), [0; 1024]);
        let mut stream = streams.iter().cycle();
        self.call(&format!("Expand by rule {rule}"), bounds::expand(), &mut || {
            assert!(wimmostry::raw::expand(rule, stream.next().unwrap(), &mut out).is_ok());
        });
    }

    fn hash(&mut self, what: &str, hash: Hash, rate: usize, input: usize, out: usize) {
        let (input, mut out) = (Draw::new(8).bytes(input), vec![0; out]);
        self.call(what, bounds::hash(rate, input.len(), out.len()), &mut || hash(&input, &mut out));
    }

    fn product(&mut self, length: usize) {
        let (a, b) = factors(&mut Draw::new(11), length);
        let (mut out, mut scratch) = (vec![0; length], vec![0; 6 * length]);
        self.call(&format!("Product, L = {length}"), bounds::product(length), &mut || halves(&a, &b, &mut out, &mut scratch));
    }

    fn grow(&mut self) {
        let (seeds, mut out) = (seeds(), [0; 1024]);
        let mut seed = seeds.iter().cycle();
        self.call("Grow by rule 14", bounds::grow(), &mut || assert!(wimmostry::raw::grow(14, seed.next().unwrap(), &mut out).is_ok()));
    }
}

pub fn rows(rows: &mut dyn Rows) {
    let mut limits = Limits::of(rows);
    SIX.iter().for_each(|it| limits.scheme(it));
    SIX.iter().filter(|it| it.family == Family::Frodo).for_each(|it| limits.by_rows(it));
    SIX.iter().for_each(|it| limits.noise(it));
    [14, 16].into_iter().for_each(|rule| limits.expand(rule));
    limits.grow();
    limits.hash("SHAKE-128, 64 KiB in, 32 bytes out", shake128, 168, 65536, 32);
    limits.hash("SHAKE-128, 32 bytes in, 64 KiB out", shake128, 168, 32, 65536);
    limits.hash("SHA3-256 of 64 KiB", sha3_256, 136, 65536, 32);
    limits.product(1024);
}
