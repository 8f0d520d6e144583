//! a s + e modulo X^n + 1 and q.

/// The plain rule: a remainder at each term.
pub fn mix(q: u32, a: &[u32], s: &[i32], e: &[i32], out: &mut [u32]) {
    let q = i64::from(q);
    let n = out.len();
    for (k, entry) in out.iter_mut().enumerate() {
        let mut sum = i64::from(e[k]).rem_euclid(q) as u64;
        for (j, &number) in a.iter().enumerate() {
            let factor = if j <= k { s[k - j] } else { -s[n + k - j] };
            let factor = i64::from(factor).rem_euclid(q) as u64;
            sum = (sum + u64::from(number) * factor) % q as u64;
        }
        *entry = sum as u32;
    }
}

/// A remainder by a modulus that the compiler does not know.
#[inline(never)]
pub fn remainder(x: u64, q: u64) -> u64 {
    x % q
}

/// The remainder by 2^32 - 1: above zero first, then the halves added twice.
fn folded(x: i64) -> u32 {
    let above = (x + (1 << 30) * i64::from(u32::MAX)) as u64;
    let once = (above >> 32) + (above & u64::from(u32::MAX));
    let twice = (once >> 32) + (once & u64::from(u32::MAX));
    if twice == u64::from(u32::MAX) { 0 } else { twice as u32 }
}

/// The kernel's own method: windows of [-a | a] as two signed halves of 16
/// bits, and where q is 2^32 - 1 no division.
pub fn mix_by_halves(q: u32, a: &[u32], s: &[i32], e: &[i32], out: &mut [u32]) {
    let n = out.len();
    let (mut high, mut low) = (vec![0i16; 2 * n], vec![0i16; 2 * n]);
    for (i, &number) in a.iter().enumerate() {
        for (at, x) in [(i, if number == 0 { 0 } else { q - number }), (n + i, number)] {
            let less = if x < 2147450880 { 0 } else { q };
            let lifted = x.wrapping_add(2147516416).wrapping_sub(less);
            high[at] = ((lifted >> 16) as i32 - 32768) as i16;
            low[at] = ((lifted & 65535) as i32 - 32768) as i16;
        }
    }
    let reversed: Vec<i16> = s.iter().rev().map(|&x| x as i16).collect();
    let dot = |w: &[i16]| -> i32 { w.iter().zip(&reversed).map(|(&x, &y)| i32::from(x) * i32::from(y)).sum() };
    for (k, entry) in out.iter_mut().enumerate() {
        let seen = k + 1..k + 1 + n;
        let sum = i64::from(dot(&high[seen.clone()])) * 65536 + i64::from(dot(&low[seen])) + i64::from(e[k]);
        *entry = if q == u32::MAX { folded(sum) } else { sum.rem_euclid(i64::from(q)) as u32 };
    }
}

/// The kernel's method before request b: windows of whole entries, and one
/// division an entry.
pub fn mix_by_windows(q: u32, a: &[u32], s: &[i32], e: &[i32], out: &mut [u32]) {
    let q = i64::from(q);
    let n = out.len();
    let mut window = vec![0i32; 2 * n];
    for (i, &number) in a.iter().enumerate() {
        let number = i64::from(number);
        let signed = (if 2 * number < q { number } else { number - q }) as i32;
        window[i] = -signed;
        window[n + i] = signed;
    }
    let reversed: Vec<i32> = s.iter().rev().copied().collect();
    for (k, entry) in out.iter_mut().enumerate() {
        let seen = &window[k + 1..k + 1 + n];
        let sum: i64 = seen.iter().zip(&reversed).map(|(&x, &y)| i64::from(x) * i64::from(y)).sum();
        *entry = (sum + i64::from(e[k])).rem_euclid(q) as u32;
    }
}
