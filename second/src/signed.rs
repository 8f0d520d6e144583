//! Remainders of signed numbers, and distances (01, "Reconciliation", first
//! sentence).

/// The remainder of x in 0..q-1, also for a negative x.
pub fn remainder(x: i128, q: i128) -> i128 {
    let cut_toward_zero = x % q;
    if cut_toward_zero < 0 {
        cut_toward_zero + q
    } else {
        cut_toward_zero
    }
}

/// The signed remainder nearest to zero: r with -q <= 2r < q.
pub fn nearest_to_zero(x: i128, q: i128) -> i128 {
    let r = remainder(x, q);
    if 2 * r < q {
        r
    } else {
        r - q
    }
}

/// The signed remainder nearest to zero of -x.
pub fn negation(x: i128, q: i128) -> i128 {
    nearest_to_zero(-x, q)
}

/// How far x is from the nearest multiple of q.
pub fn distance(x: i128, q: i128) -> i128 {
    nearest_to_zero(x, q).abs()
}
