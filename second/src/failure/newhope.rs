//! NewHope with noise of k = 16. The premise fails where in some group the four
//! distances sum to 9,215 or more. An upper bound for that, in four steps:
//!
//! - Around the circle d is no further from 0 than as a whole number.
//! - Four sizes sum to 9,215 or more only if, with some of their 16 choices of
//!   signs, the four numbers do. So the chance is at most that of 256 groups
//!   times 16 choices.
//! - With its signs that sum is one of 512 numbers s M e, each of four values of a
//!   secret and four of the noise that it is multiplied with, drawn by themselves,
//!   and of four values of e''. M is 4 by 4, all of its entries 1 or -1; whichever
//!   group and signs are taken, s M e comes out by the same law.
//! - For any z above 1 the chance that a sum L is at least m is at most the mean
//!   of z^L over z^m (Chernoff's rule), and the mean of z to a sum is the product
//!   of the means. All is rounded up.

use crate::table::Between;

/// One more than the margin.
const BEYOND: u32 = 9215;

/// z = 1 + 1/62: about the best.
const Z: u64 = 62;

/// x, rounded down to two digits, where the chance is at most 2^-x.
pub fn bound() -> String {
    let one = Scaled::of(Between::whole(1));
    let less = Scaled::of(Between::whole(Z).over(Z + 1)); // 1/z
    let (products, last) = (
        Scaled::of(mean_of_product()),
        Scaled::of(means()[1].clone()),
    );
    let chance = one
        .times(&less.power(BEYOND))
        .times(&products.power(512))
        .times(&last.power(4));
    let x = -chance.log() - f64::from((256u32 * 16).ilog2());
    format!("{:.2}", (100.0 * x).floor() / 100.0)
}

/// For u from 0 to 64 the mean of z^(ue), e a noise value: e is a sum of 32
/// halves, each with either sign.
fn means() -> Vec<Between> {
    let (z, less) = (Between::whole(Z + 1).over(Z), Between::whole(Z).over(Z + 1));
    let (mut up, mut down) = (Between::whole(1), Between::whole(1));
    let mut means = vec![];
    for _ in 0..=64 {
        let mut mean = up.plus(&down).plus(&Between::whole(2)).over(4);
        for _ in 0..4 {
            mean = mean.times(&mean);
        }
        means.push(mean);
        (up, down) = (up.times(&z), down.times(&less));
    }
    means
}

/// The mean of z^(s M e): first over e, for each s.
fn mean_of_product() -> Between {
    let means = means();
    let chances = chances();
    let values = || (-16..=16).zip(&chances);
    let mut sum = Between::whole(0);
    for (a, p) in values() {
        for (b, q) in values() {
            let pq = p.times(q);
            for (c, r) in values() {
                let pqr = pq.times(r);
                let mut inner = Between::whole(0);
                for (d, s) in values() {
                    let sums = turned([a, b, c, d], [1; 4]);
                    let [w, x, y, z] = sums.map(|u| &means[u.unsigned_abs() as usize]);
                    inner = inner.plus(&w.times(x).times(y).times(z).times(s));
                }
                sum = sum.plus(&inner.times(&pqr));
            }
        }
    }
    sum
}

/// How likely each noise value is, from -16 on: of 2^32 pairs of words 32 over
/// 16 + z give z.
pub fn chances() -> Vec<Between> {
    let mut frequency = 1;
    let mut chances = vec![];
    for k in 0..=32 {
        chances.push(Between::whole(frequency).over(1 << 32));
        frequency = frequency * (32 - k) / (k + 1);
    }
    chances
}

/// s M, where M has the sign of (a + b) in row a and column b: the four signs,
/// and behind them their negatives, as X^1024 is -1.
pub fn turned(s: [i32; 4], signs: [i32; 4]) -> [i32; 4] {
    let sign = |k: usize| if k < 4 { signs[k] } else { -signs[k - 4] };
    [0, 1, 2, 3].map(|b| (0..4).map(|a| sign(a + b) * s[a]).sum())
}

/// A number times a power of two, so that it stays near 1.
#[derive(Clone)]
struct Scaled {
    value: Between,
    exponent: i32,
}

impl Scaled {
    fn of(value: Between) -> Scaled {
        let mut scaled = Scaled { value, exponent: 0 };
        while scaled.value.high.whole() >= 2 {
            scaled.value = scaled.value.over(2);
            scaled.exponent += 1;
        }
        while scaled.value.high.whole() == 0 {
            scaled.value = scaled.value.scaled(2);
            scaled.exponent -= 1;
        }
        scaled
    }

    fn times(&self, other: &Scaled) -> Scaled {
        let product = Scaled::of(self.value.times(&other.value));
        Scaled {
            exponent: product.exponent + self.exponent + other.exponent,
            ..product
        }
    }

    fn power(&self, n: u32) -> Scaled {
        match n {
            0 => Scaled::of(Between::whole(1)),
            _ => {
                let half = self.power(n / 2);
                let square = half.times(&half);
                if n % 2 == 1 {
                    square.times(self)
                } else {
                    square
                }
            }
        }
    }

    /// Of its upper end, to base 2.
    fn log(&self) -> f64 {
        self.value.high.nearly().log2() + f64::from(self.exponent)
    }
}
