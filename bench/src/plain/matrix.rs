//! Frodo's products in 16-bit words, which wrap at 65,536, a multiple of q;
//! `mask` is q - 1.

/// The columns of s, n rows of 8, one after another.
fn columns(n: usize, s: &[u16]) -> Vec<u16> {
    let mut out = vec![0; 8 * n];
    for (t, row) in s.chunks_exact(8).enumerate() {
        for (j, &x) in row.iter().enumerate() {
            out[j * n + t] = x;
        }
    }
    out
}

/// X s + e: a column of s with each row of X.
pub fn mix_right(mask: u16, n: usize, x: &[u16], s: &[u16], e: &[u16], out: &mut [u16]) {
    let columns = columns(n, s);
    for ((row, out), e) in x.chunks_exact(n).zip(out.chunks_exact_mut(8)).zip(e.chunks_exact(8)) {
        for (j, column) in columns.chunks_exact(n).enumerate() {
            let sum = row.iter().zip(column).fold(0u16, |sum, (&x, &y)| sum.wrapping_add(x.wrapping_mul(y)));
            out[j] = sum.wrapping_add(e[j]) & mask;
        }
    }
}

/// s Y + e: rows of Y added to the rows of the result.
pub fn mix_left(mask: u16, n: usize, c: usize, s: &[u16], y: &[u16], e: &[u16], out: &mut [u16]) {
    out.copy_from_slice(e);
    for (t, row) in y.chunks_exact(c).enumerate() {
        for (i, out) in out.chunks_exact_mut(c).enumerate() {
            let factor = s[i * n + t];
            for (sum, &number) in out.iter_mut().zip(row) {
                *sum = sum.wrapping_add(factor.wrapping_mul(number));
            }
        }
    }
    for sum in out {
        *sum &= mask;
    }
}
