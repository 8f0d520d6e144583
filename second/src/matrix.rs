//! 01, "The calls": Frodo's matrices, which lie row after row.

use crate::signed::remainder;

/// The product of a matrix of rows by inner and one of inner by columns.
pub fn product(
    left: &[i128],
    right: &[i128],
    (rows, inner, columns): (usize, usize, usize),
    q: i128,
) -> Vec<i128> {
    assert_eq!(left.len(), rows * inner);
    assert_eq!(right.len(), inner * columns);
    let mut answer = vec![0; rows * columns];
    // Each row of the answer is the sum of the rows of right, each times its
    // entry in the row of left.
    for (entries, factors) in answer.chunks_mut(columns).zip(left.chunks(inner)) {
        for (factor, terms) in factors.iter().zip(right.chunks(columns)) {
            for (entry, term) in entries.iter_mut().zip(terms) {
                *entry += factor * term;
            }
        }
    }
    answer.iter().map(|&entry| remainder(entry, q)).collect()
}

/// AS: n by n times n by 8.
pub fn a_s(a: &[i128], s: &[i128], n: usize, q: i128) -> Vec<i128> {
    product(a, s, (n, n, 8), q)
}

/// S'A: 8 by n times n by n.
pub fn s1_a(s1: &[i128], a: &[i128], n: usize, q: i128) -> Vec<i128> {
    product(s1, a, (8, n, n), q)
}

/// S'B: 8 by n times n by 8.
pub fn s1_b(s1: &[i128], b: &[i128], n: usize, q: i128) -> Vec<i128> {
    product(s1, b, (8, n, 8), q)
}

/// B'S: 8 by n times n by 8.
pub fn b1_s(b1: &[i128], s: &[i128], n: usize, q: i128) -> Vec<i128> {
    product(b1, s, (8, n, 8), q)
}
