//! BCNS's calls. The product is the caller's choice: the plain rule, or one
//! remainder an entry, by whole windows or by their halves.

use super::{packing, Calls};
use crate::lent::Lent;

const N: usize = 1024;
const Q: u32 = u32::MAX;
const PACKED: usize = 4096;

/// a s + e modulo X^n + 1 and q.
pub type Mix = fn(u32, &[u32], &[i32], &[i32], &mut [u32]);

pub struct Bcns<'a> {
    pub lent: &'a Lent,
    pub mix: Mix,
}

/// z = 2v - c modulo 2q, with two coin bits for c.
fn double(v: u32, coin: u16) -> u64 {
    let c = [0, 0, 1, -1][usize::from(coin)];
    (2 * i64::from(v) - c).rem_euclid(2 * i64::from(Q)) as u64
}

fn hint(z: u64) -> u16 {
    (2 * z / u64::from(Q) % 2) as u16
}

fn key(z: u64) -> u16 {
    (2147483648..=6442450942).contains(&z).into()
}

/// The initiator's bit of w: 1 in one half of the circle, which the hint turns.
fn peer(hint: u16, w: u32) -> u16 {
    let low = if hint == 0 { 1610612736 } else { 536870912 };
    (low..low + 2147483648).contains(&w).into()
}

impl Calls for Bcns<'_> {
    fn offer(&self, message: &mut [u8]) {
        let mut b = [0; N];
        (self.mix)(Q, &self.lent.a, &self.lent.s, &self.lent.e, &mut b);
        packing::pack(32, &b, message);
    }

    fn reply(&self, opening: &[u8], message: &mut [u8], key_bytes: &mut [u8]) {
        let lent = self.lent;
        let (mut b, mut u, mut v) = ([0; N], [0; N], [0; N]);
        packing::unpack(32, opening, &mut b);
        (self.mix)(Q, &lent.a, &lent.s1, &lent.e1, &mut u);
        (self.mix)(Q, &b, &lent.s1, &lent.e2, &mut v);
        let (mut coins, mut hints, mut keys) = ([0; N], [0; N], [0; N]);
        packing::unpack(2, &lent.coins, &mut coins);
        for i in 0..N {
            let z = double(v[i], coins[i]);
            hints[i] = hint(z);
            keys[i] = key(z);
        }
        packing::pack(32, &u, &mut message[..PACKED]);
        packing::pack(1, &hints, &mut message[PACKED..]);
        packing::pack(1, &keys, key_bytes);
    }

    fn finish(&self, reply: &[u8], key: &mut [u8]) {
        let (mut u, mut w) = ([0; N], [0; N]);
        packing::unpack(32, &reply[..PACKED], &mut u);
        (self.mix)(Q, &u, &self.lent.s, &[0; N], &mut w);
        let (mut hints, mut keys) = ([0; N], [0; N]);
        packing::unpack(1, &reply[PACKED..], &mut hints);
        for i in 0..N {
            keys[i] = peer(hints[i], w[i]);
        }
        packing::pack(1, &keys, key);
    }
}
