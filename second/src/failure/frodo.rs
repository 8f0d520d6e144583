//! Frodo: one entry of d = S'E + E'' - E'S is a sum of 2n products of two noise
//! values each and of one value more, all drawn by themselves. How often it is x,
//! modulo q, is the x-th number of a convolution. What is asked for is a sum over
//! all x with weights; by Fourier's rule it is the same as a sum over the roots
//! of unity, where a convolution is a product. In a field with such roots that is
//! exact, and enough fields give the whole number.

use super::exact::{primes, Big, Chance, Field};
use crate::noise;
use crate::reconcile::frodo::Rule;
use crate::schemes::Scheme;

pub struct Set {
    pub n: usize,
    /// A power of two.
    pub q: u64,
    /// The rounding interval.
    pub interval: u64,
    /// How often 0, 1, 2, .. come out, each sign by itself, of 2^bits words.
    pub frequencies: Vec<u64>,
    pub bits: u32,
}

/// Of one entry.
pub struct Failing {
    /// d is further from 0, modulo q, than a quarter of the interval.
    pub beyond: Chance,
    /// The two keys differ, v being uniform.
    pub differ: Chance,
}

impl Set {
    /// The frequencies are counted over all words, of the sampler itself.
    pub fn of(scheme: &Scheme) -> Set {
        let bits = match scheme.number {
            2 => 8,
            3 | 4 => 12,
            _ => 16,
        };
        let mut frequencies = vec![0; scheme.largest_noise as usize + 1];
        for word in 0..1 << bits {
            let value = noise::frodo(scheme, word);
            if value >= 0 {
                frequencies[value as usize] += 1;
            }
        }
        Set {
            n: scheme.n,
            q: scheme.q as u64,
            interval: Rule::of(scheme).interval() as u64,
            frequencies,
            bits,
        }
    }

    /// All noise of one entry is 4n + 1 values. Where d is t from 0, the keys
    /// differ for t - I/4 of each I/2 values of v, at least none and at most all.
    pub fn chance(&self) -> Failing {
        let bits = self.bits * (4 * self.n as u32 + 1);
        let half = (self.interval / 2).trailing_zeros();
        let fields = primes(bits + half + 1);
        let sums: Vec<[u64; 2]> = fields.iter().map(|field| self.sums(field)).collect();
        let whole = |which: usize| {
            let remainders: Vec<u64> = sums.iter().map(|both| both[which]).collect();
            Big::from_remainders(&fields, &remainders)
        };
        Failing {
            beyond: Chance {
                over: whole(0),
                bits,
            },
            differ: Chance {
                over: whole(1),
                bits: bits + half,
            },
        }
    }

    /// Modulo a prime: how often |d| is beyond I/4, and the sum of how often d is
    /// x times the values of v, of I/2, for which the keys then differ.
    fn sums(&self, f: &Field) -> [u64; 2] {
        let (q, quarter) = (self.q as usize, self.interval as usize / 4);
        let cosines = cosines(f, self.q);
        let twice = |k: usize| cosines[k % q];
        let often: Vec<u64> = self.frequencies.iter().map(|&n| f.of(n)).collect();
        let noise: Vec<u64> = (0..q).map(|k| at(f, k, &often, &twice)).collect();
        let zero = f.of(0);
        let divisors: Vec<u64> = (1..=q / 2).map(|k| f.minus(twice(k), f.of(2))).collect();
        let inverses = f.inverses(&divisors);
        let (mut beyond, mut differ) = (zero, zero);
        // by symmetry the roots up to half the circle are enough
        for k in 0..=q / 2 {
            let product = product(f, k, &often, &noise);
            let whole = f.times(f.power(product, 2 * self.n as u64), noise[k]);
            let weights = match k {
                0 => self.weights_at_one(f),
                _ => {
                    // both weights have second differences that are 0 nearly everywhere
                    let within = f.minus(twice(k * (quarter + 1)), twice(k * quarter));
                    let rising = f.minus(twice(k * quarter), twice(3 * k * quarter));
                    [f.minus(zero, within), rising].map(|x| f.times(x, inverses[k - 1]))
                }
            };
            let [one, other] = weights.map(|weight| f.times(whole, weight));
            let times = if k == 0 || k == q / 2 { 1 } else { 2 };
            for _ in 0..times {
                beyond = f.plus(beyond, one);
                differ = f.plus(differ, other);
            }
        }
        let circle = f.inverse(f.of(self.q));
        [beyond, differ].map(|sum| f.number(f.times(sum, circle)))
    }

    /// All weights summed.
    fn weights_at_one(&self, f: &Field) -> [u64; 2] {
        let quarter = self.interval / 4;
        let distances = (0..self.q).map(|x| x.min(self.q - x));
        let beyond = distances.clone().filter(|&t| t > quarter).count() as u64;
        let differ = distances.map(|t| differing(self.interval, t)).sum();
        [f.of(beyond), f.of(differ)]
    }
}

/// For how many of each I/2 values of v the keys differ, d being t from 0.
pub fn differing(interval: u64, t: u64) -> u64 {
    t.saturating_sub(interval / 4).min(interval / 2)
}

/// The powers k and -k of a root of order q, summed, for each k.
fn cosines(f: &Field, q: u64) -> Vec<u64> {
    let root = f.root(q);
    let mut powers = vec![f.of(1)];
    for k in 1..q as usize {
        powers.push(f.times(powers[k - 1], root));
    }
    let sum = |k: usize| f.plus(powers[k], powers[(q as usize - k) % q as usize]);
    (0..q as usize).map(sum).collect()
}

/// The noise at the k-th root: the sum of how often times the root's powers.
fn at(f: &Field, k: usize, often: &[u64], twice: &dyn Fn(usize) -> u64) -> u64 {
    let mut sum = often[0];
    for (value, &often) in often.iter().enumerate().skip(1) {
        sum = f.plus(sum, f.times(often, twice(k * value)));
    }
    sum
}

/// A product of two values: the second at the root's power by the first.
fn product(f: &Field, k: usize, often: &[u64], noise: &[u64]) -> u64 {
    let mut sides = 0;
    for (value, &often) in often.iter().enumerate().skip(1) {
        sides = f.plus(sides, f.times(often, noise[k * value % noise.len()]));
    }
    let middle = f.times(often[0], noise[0]);
    f.plus(middle, f.plus(sides, sides))
}
