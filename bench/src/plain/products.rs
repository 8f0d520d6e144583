//! a b modulo X^n + 1 and 2^32 - 1, both factors of numbers below it.

const Q: u64 = u32::MAX as u64;

/// The plain rule: a remainder at each term.
pub fn by_terms(a: &[u32], b: &[u32], out: &mut [u32]) {
    let n = out.len();
    for (k, entry) in out.iter_mut().enumerate() {
        let mut sum = 0;
        for (j, &x) in a.iter().enumerate() {
            let y = if j <= k { u64::from(b[k - j]) } else { Q - u64::from(b[n + k - j]) };
            sum = (sum + u64::from(x) * y % Q) % Q;
        }
        *entry = sum as u32;
    }
}

fn dot(a: &[u32], b: &[u32]) -> u64 {
    let sum: u128 = a.iter().zip(b.iter().rev()).map(|(&x, &y)| u128::from(u64::from(x) * u64::from(y))).sum();
    (sum % u128::from(Q)) as u64
}

/// Sums of 128 bits, what stays and what comes round apart, and one remainder of
/// each a coefficient.
pub fn by_sums(a: &[u32], b: &[u32], out: &mut [u32]) {
    for (k, entry) in out.iter_mut().enumerate() {
        let (stays, comes_round) = (dot(&a[..k + 1], &b[..k + 1]), dot(&a[k + 1..], &b[k + 1..]));
        *entry = ((stays + Q - comes_round) % Q) as u32;
    }
}
