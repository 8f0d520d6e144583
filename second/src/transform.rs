//! 01, "The NewHope transform".

use crate::schemes::NEWHOPE;
use crate::signed::remainder;

const Q: i128 = NEWHOPE.q;
const N: usize = NEWHOPE.n;

/// base to the given power modulo q, by multiplying again and again.
pub fn power(base: i128, exponent: usize) -> i128 {
    let mut answer = 1;
    for _ in 0..exponent {
        answer = remainder(answer * base, Q);
    }
    answer
}

/// The x with 7x = 1 modulo q, by search.
pub fn inverse_of_7() -> i128 {
    (0..Q).find(|x| remainder(7 * x, Q) == 1).unwrap()
}

/// The powers 0 to 2047 of 7 or of its inverse.
fn powers(base: i128) -> Vec<i128> {
    let mut answer = vec![1; 2 * N];
    for j in 1..2 * N {
        answer[j] = remainder(answer[j - 1] * base, Q);
    }
    answer
}

/// Any power, from those: 7^1024 is -1, so they come round after 2048.
fn power_of(powers: &[i128], exponent: usize) -> i128 {
    powers[exponent % (2 * N)]
}

/// Entry i: the sum over j of 7^j g_j 49^(ij).
pub fn transform(g: &[i128]) -> Vec<i128> {
    assert_eq!(g.len(), N);
    let powers = powers(7);
    let entry = |i| {
        // 7^j 49^(ij) is 7 to the power j + 2ij.
        let term = |j: usize| power_of(&powers, j + 2 * i * j) * g[j];
        remainder((0..N).map(term).sum(), Q)
    };
    (0..N).map(entry).collect()
}

/// Entry j: 12277 times 7^(-j) times the sum over i of t_i 49^(-ij).
pub fn inverse(t: &[i128]) -> Vec<i128> {
    assert_eq!(t.len(), N);
    let powers = powers(inverse_of_7());
    let entry = |j| {
        let term = |i: usize| power_of(&powers, 2 * i * j) * t[i];
        let sum: i128 = (0..N).map(term).sum();
        remainder(12277 * power_of(&powers, j) * sum, Q)
    };
    (0..N).map(entry).collect()
}

/// The product through the transform: entry by entry.
pub fn product(f: &[i128], g: &[i128]) -> Vec<i128> {
    let (f, g) = (transform(f), transform(g));
    let entries = f.iter().zip(&g);
    let products: Vec<i128> = entries.map(|(x, y)| remainder(x * y, Q)).collect();
    inverse(&products)
}
