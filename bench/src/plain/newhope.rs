//! NewHope's calls as the paper's own code has them: 16-bit numbers, Montgomery
//! and Barrett reductions, divisions by q as products with a shift. The noise
//! is lent as that code takes it: below q, and in bit-reversed order where it
//! is transformed.

use super::packing;
use super::transform::{add, bit_reverse, freeze, pointwise, Poly, Tables, N, Q};
use super::Calls;
use crate::lent::Lent;

const PACKED: usize = 1792;
const GROUPS: usize = N / 4;

pub struct NewHope {
    tables: Tables,
    a: Poly,
    s: Poly,
    e: Poly,
    seed: Vec<u8>,
    s1: Poly,
    e1: Poly,
    e2: Poly,
    coins: Vec<u8>,
}

fn below(values: &[i32]) -> Poly {
    std::array::from_fn(|i| values[i].rem_euclid(Q as i32) as u16)
}

fn reversed(values: &[i32]) -> Poly {
    let mut x = below(values);
    bit_reverse(&mut x);
    x
}

impl NewHope {
    pub fn of(lent: &Lent) -> NewHope {
        NewHope {
            tables: Tables::default(),
            a: std::array::from_fn(|i| lent.a[i] as u16),
            s: reversed(&lent.s),
            e: reversed(&lent.e),
            seed: lent.seed.clone(),
            s1: reversed(&lent.s1),
            e1: reversed(&lent.e1),
            e2: below(&lent.e2),
            coins: lent.coins.clone(),
        }
    }

    fn transformed(&self, x: &Poly) -> Poly {
        let mut x = *x;
        self.tables.forward(&mut x);
        x
    }

    /// a s + e, all through the transform.
    fn mix(&self, a: &Poly, s: &Poly, e: &Poly) -> Poly {
        let mut b = pointwise(a, s);
        add(&mut b, e);
        freeze(&mut b);
        b
    }

    /// The product of two transforms.
    fn product(&self, u: &Poly, s: &Poly) -> Poly {
        let mut w = pointwise(u, s);
        self.tables.inverse(&mut w);
        w
    }

    /// Finish with the secret already transformed, as that code keeps it.
    pub fn finish_kept(&self, reply: &[u8], s: &Poly, key: &mut [u8]) {
        let (mut u, mut hints) = ([0; N], [0; N]);
        packing::unpack(14, &reply[..PACKED], &mut u);
        packing::unpack(2, &reply[PACKED..], &mut hints);
        let mut w = self.product(&u, s);
        freeze(&mut w);
        rec(&w, &hints, key);
    }

    /// The secret s, transformed.
    pub fn kept(&self) -> Poly {
        self.transformed(&self.s)
    }
}

/// x by d rounded down, where `shift` fits d: 2730 / 2^25 is a little below
/// 1 / 12289, and one step makes good what is missing.
fn divided(x: i32, d: i32, shift: u32) -> i32 {
    let t = (x * 2730) >> shift;
    t - ((d - 1 - (x - t * d)) >> 31)
}

/// The two nearest points to x in units of 2q, and how far the first is.
fn nearest(x: i32) -> (i32, i32, i32) {
    let t = divided(x, Q as i32, 25);
    let first = (t >> 1) + (t & 1);
    let second = ((t - 1) >> 1) + ((t - 1) & 1);
    (first, second, (x - first * 2 * Q as i32).abs())
}

/// How far x is from the nearest multiple of 8q.
fn away(x: i32) -> i32 {
    let t = divided(x, 4 * Q as i32, 27);
    let t = (t >> 1) + (t & 1);
    (t * 8 * Q as i32 - x).abs()
}

fn helprec(v: &Poly, coins: &[u8]) -> Poly {
    let mut hints = [0; N];
    for i in 0..GROUPS {
        let coin = i32::from(coins[i >> 3] >> (i & 7) & 1);
        let near = [0, 1, 2, 3].map(|j| nearest(8 * i32::from(v[i + GROUPS * j]) + 4 * coin));
        let k = (2 * Q as i32 - 1 - near.iter().map(|n| n.2).sum::<i32>()) >> 31;
        let p = near.map(|n| (!k & n.0) ^ (k & n.1));
        for j in 0..3 {
            hints[i + GROUPS * j] = ((p[j] - p[3]) & 3) as u16;
        }
        hints[i + GROUPS * 3] = ((2 * p[3] - k) & 3) as u16;
    }
    hints
}

/// The key bit of group i: 1 near, 0 far.
fn bit(x: &Poly, hints: &Poly, i: usize) -> u8 {
    let (q, at) = (Q as i32, [0, 1, 2, 3].map(|j| i + GROUPS * j));
    let (x, h) = (at.map(|k| i32::from(x[k])), at.map(|k| i32::from(hints[k])));
    let first: i32 = (0..3).map(|j| away(16 * q + 8 * x[j] - q * (2 * h[j] + h[3]))).sum();
    let sum = first + away(16 * q + 8 * x[3] - q * h[3]);
    (((sum - 8 * q - 1) >> 31) & 1) as u8
}

fn rec(x: &Poly, hints: &Poly, key: &mut [u8]) {
    let mut bytes = [0; GROUPS / 8];
    for i in 0..GROUPS {
        bytes[i >> 3] |= bit(x, hints, i) << (i & 7);
    }
    key.copy_from_slice(&bytes);
}

impl Calls for NewHope {
    fn offer(&self, message: &mut [u8]) {
        let (s, e) = (self.transformed(&self.s), self.transformed(&self.e));
        let b = self.mix(&self.a, &s, &e);
        packing::pack(14, &b, &mut message[..PACKED]);
        message[PACKED..].copy_from_slice(&self.seed);
    }

    fn reply(&self, opening: &[u8], message: &mut [u8], key: &mut [u8]) {
        let mut b = [0; N];
        packing::unpack(14, &opening[..PACKED], &mut b);
        let (s, e) = (self.transformed(&self.s1), self.transformed(&self.e1));
        let u = self.mix(&self.a, &s, &e);
        let mut v = self.product(&b, &s);
        add(&mut v, &self.e2);
        freeze(&mut v);
        let hints = helprec(&v, &self.coins);
        packing::pack(14, &u, &mut message[..PACKED]);
        packing::pack(2, &hints, &mut message[PACKED..]);
        rec(&v, &hints, key);
    }

    fn finish(&self, reply: &[u8], key: &mut [u8]) {
        self.finish_kept(reply, &self.kept(), key);
    }
}
