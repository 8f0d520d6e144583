//! What a call cannot take less than: it reads or writes all that is lent to it,
//! and makes the products of its method and the permutations of its hash. At the
//! best the three go on beside each other, so that the largest is the bound.

use crate::lent::table;
use second::noise::{bytes_a_value, lengths};
use second::rows::state_count;
use second::schemes::{Family, Scheme};

/// How often BCNS's product is taken apart into three of half the length.
pub const LEVELS: u32 = 4;

/// Blocks of SHAKE-128 that Grow makes by rule 14, for nearly all seeds: only where
/// these give too few numbers does it make all 24.
pub const GROW_BLOCKS: usize = 17;

/// Multiplications of 16 bits in a product of NewHope: the product's upper half,
/// and for its reduction a lower and an upper half more.
const REDUCED: usize = 3;

/// What has to be done at the least; `products` are of 16 bits.
#[derive(Debug, PartialEq)]
pub struct Work {
    pub bytes: usize,
    pub products: usize,
    pub permutations: usize,
}

/// The digest of a key, which is below 136 bytes, so that one permutation makes it.
const DIGEST_BYTES: usize = 32;
const DIGEST: usize = 1;

fn words(count: usize) -> usize {
    4 * count
}

/// A product of polynomials in BCNS: every number, in two halves, by every secret;
/// three quarters of it remain at each level.
pub fn windows(n: usize, levels: u32) -> usize {
    2 * n * n * 3usize.pow(levels) / 4usize.pow(levels)
}

/// Either way: ten times 512 butterflies, of a product each. The factors at the
/// end of the way back can be had in its powers.
fn transform(n: usize) -> usize {
    REDUCED * n / 2 * n.ilog2() as usize
}

/// Entry by entry.
fn entries(n: usize) -> usize {
    REDUCED * n
}

pub fn offer(scheme: &Scheme) -> Work {
    let n = scheme.n;
    Work {
        bytes: words(scheme.public_count() + 2 * scheme.secret_count()) + scheme.seed_bytes() + scheme.opening_bytes(),
        products: match scheme.family {
            Family::Bcns => windows(n, LEVELS),
            // of s and e
            Family::NewHope => 2 * transform(n) + entries(n),
            Family::Frodo => 8 * n * n,
        },
        permutations: 0,
    }
}

pub fn reply(scheme: &Scheme) -> Work {
    let (n, lent) = (scheme.n, scheme.public_count() + 2 * scheme.secret_count() + scheme.last_noise_count());
    Work {
        bytes: scheme.opening_bytes() + words(lent) + scheme.coin_bytes() + scheme.reply_bytes() + scheme.key_bytes + DIGEST_BYTES,
        products: match scheme.family {
            Family::Bcns => 2 * windows(n, LEVELS),
            // of s' and e', and of v back
            Family::NewHope => 3 * transform(n) + 2 * entries(n),
            // S' A and S' B
            Family::Frodo => 8 * n * n + 64 * n,
        },
        permutations: DIGEST,
    }
}

pub fn finish(scheme: &Scheme) -> Work {
    let n = scheme.n;
    Work {
        bytes: scheme.reply_bytes() + words(scheme.secret_count()) + scheme.key_bytes + DIGEST_BYTES,
        products: match scheme.family {
            Family::Bcns => windows(n, LEVELS),
            // of s, and of w back
            Family::NewHope => 2 * transform(n) + entries(n),
            Family::Frodo => 64 * n,
        },
        permutations: DIGEST,
    }
}

/// It is lent what both ends are and makes the work of all three; the messages stay
/// inside.
pub fn bench(scheme: &Scheme) -> Work {
    let lent = scheme.public_count() + 4 * scheme.secret_count() + scheme.last_noise_count();
    let three = [offer(scheme), reply(scheme), finish(scheme)];
    Work {
        bytes: words(lent) + scheme.seed_bytes() + scheme.coin_bytes(),
        products: three.iter().map(|it| it.products).sum(),
        permutations: three.iter().map(|it| it.permutations).sum(),
    }
}

/// By rows the state is lent besides what the whole call is.
pub fn by_rows(scheme: &Scheme, whole: Work) -> Work {
    Work { bytes: whole.bytes + words(state_count(scheme)), ..whole }
}

/// BCNS's table is read besides.
pub fn noise(scheme: &Scheme) -> Work {
    let bytes = lengths(scheme)[0];
    Work { bytes: bytes + 8 * table(scheme).len() + words(bytes / bytes_a_value(scheme)), products: 0, permutations: 0 }
}

/// Two bytes a number, where none is passed over.
pub fn expand() -> Work {
    Work { bytes: 2 * 1024 + words(1024), products: 0, permutations: 0 }
}

/// A permutation a block that comes in, the last of them for what ends the input, and
/// one a block that goes out after the first.
pub fn hash(rate: usize, input: usize, out: usize) -> Work {
    Work { bytes: input + out, products: 0, permutations: input / rate + out.div_ceil(rate) }
}

/// Two numbers of 32 bits, of which a vector makes as many products as a quarter of
/// those of 16: three products of half the length, down to factors of 32. The scratch
/// is zeroed.
pub fn product(length: usize) -> Work {
    Work { bytes: words(9 * length), products: 4 * 32 * 32 * 3usize.pow((length / 32).ilog2()), permutations: 0 }
}

pub fn grow() -> Work {
    Work { bytes: 32 + words(1024), products: 0, permutations: GROW_BLOCKS }
}

/// What the three of a work take by themselves, in nanoseconds.
pub struct Bounds {
    pub bytes: f64,
    pub products: f64,
    pub permutations: f64,
}

impl Bounds {
    /// From the time of reading as many bytes, and of one product and one permutation.
    pub fn of(work: &Work, reading: f64, product: f64, permutation: f64) -> Bounds {
        Bounds { bytes: reading, products: work.products as f64 * product, permutations: work.permutations as f64 * permutation }
    }

    /// The largest, and which it is.
    pub fn largest(&self) -> (f64, &'static str) {
        let three = [(self.bytes, "bytes"), (self.products, "products"), (self.permutations, "permutations")];
        three.into_iter().fold((0.0, "none"), |most, one| if one.0 > most.0 { one } else { most })
    }
}
