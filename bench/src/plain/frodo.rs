//! Frodo's calls in 16-bit words, with A, the secrets and the noise lent so.

use super::{matrix, packing, Calls};
use crate::lent::Lent;

pub struct Frodo {
    n: usize,
    mask: u16,
    width: u32,
    /// The rounding interval is 2 to this.
    interval: u32,
    key_bits: u32,
    a: Vec<u16>,
    s: Vec<u16>,
    e: Vec<u16>,
    seed: Vec<u8>,
    s1: Vec<u16>,
    e1: Vec<u16>,
    e2: Vec<u16>,
}

fn wrapped(xs: &[i32]) -> Vec<u16> {
    xs.iter().map(|&x| x as u16).collect()
}

impl Frodo {
    pub fn of(lent: &Lent) -> Frodo {
        let (width, key_bits) = (lent.scheme.width as u32, lent.scheme.key_width() as u32);
        Frodo {
            n: lent.scheme.n,
            mask: (lent.scheme.q - 1) as u16,
            width,
            interval: width - key_bits,
            key_bits,
            a: lent.a.iter().map(|&x| x as u16).collect(),
            s: wrapped(&lent.s),
            e: wrapped(&lent.e),
            seed: lent.seed.clone(),
            s1: wrapped(&lent.s1),
            e1: wrapped(&lent.e1),
            e2: wrapped(&lent.e2),
        }
    }

    fn packed(&self) -> usize {
        self.n * self.width as usize
    }

    fn hint(&self, v: u16) -> u16 {
        v >> (self.interval - 1) & 1
    }

    /// v and a half interval, rounded down.
    fn key(&self, v: u16) -> u16 {
        (v + (1 << (self.interval - 1))) >> self.interval & ((1 << self.key_bits) - 1)
    }

    /// The same with w and one or three quarters.
    fn peer(&self, hint: u16, w: u16) -> u16 {
        (w + ((1 + 2 * hint) << (self.interval - 2))) >> self.interval & ((1 << self.key_bits) - 1)
    }
}

impl Calls for Frodo {
    fn offer(&self, message: &mut [u8]) {
        let mut b = vec![0; 8 * self.n];
        matrix::mix_right(self.mask, self.n, &self.a, &self.s, &self.e, &mut b);
        let (seed, packed) = message.split_at_mut(self.seed.len());
        seed.copy_from_slice(&self.seed);
        packing::pack(self.width, &b, packed);
    }

    fn reply(&self, opening: &[u8], message: &mut [u8], key: &mut [u8]) {
        let (mut b, mut u, mut v) = (vec![0; 8 * self.n], vec![0; 8 * self.n], [0; 64]);
        packing::unpack(self.width, &opening[self.seed.len()..], &mut b);
        matrix::mix_left(self.mask, self.n, self.n, &self.s1, &self.a, &self.e1, &mut u);
        matrix::mix_left(self.mask, self.n, 8, &self.s1, &b, &self.e2, &mut v);
        let (packed, hints) = message.split_at_mut(self.packed());
        packing::pack(self.width, &u, packed);
        packing::pack(1, &v.map(|v| self.hint(v)), hints);
        packing::pack(self.key_bits, &v.map(|v| self.key(v)), key);
    }

    fn finish(&self, reply: &[u8], key: &mut [u8]) {
        let (mut u, mut w, mut hints) = (vec![0; 8 * self.n], [0; 64], [0; 64]);
        packing::unpack(self.width, &reply[..self.packed()], &mut u);
        packing::unpack(1, &reply[self.packed()..], &mut hints);
        matrix::mix_right(self.mask, self.n, &u, &self.s, &[0; 64], &mut w);
        let entries: [u16; 64] = std::array::from_fn(|i| self.peer(hints[i], w[i]));
        packing::pack(self.key_bits, &entries, key);
    }
}
