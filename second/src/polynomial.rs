//! 01, "The calls": polynomials modulo X^n + 1 and q.

use crate::signed::remainder;

/// The product of f and g modulo X^n + 1 and q, n their common length.
pub fn product(f: &[i128], g: &[i128], q: i128) -> Vec<i128> {
    assert_eq!(f.len(), g.len());
    let n = f.len();
    let mut answer = vec![0; n];
    for i in 0..n {
        for j in 0..n {
            let term = f[i] * g[j];
            if i + j < n {
                answer[i + j] += term;
            } else {
                // X^n is -1.
                answer[i + j - n] -= term;
            }
        }
    }
    answer.iter().map(|&entry| remainder(entry, q)).collect()
}

/// The sum modulo q, entry by entry; also for matrices.
pub fn sum(f: &[i128], g: &[i128], q: i128) -> Vec<i128> {
    assert_eq!(f.len(), g.len());
    let entries = f.iter().zip(g);
    entries.map(|(x, y)| remainder(x + y, q)).collect()
}
