//! The published method for NewHope's transform: Montgomery reductions with
//! R = 2^18, Gentleman-Sande butterflies in place, 16-bit numbers, tables made
//! before, and numbers that come in bit-reversed order.

pub const Q: u32 = 12289;
pub const N: usize = 1024;

pub type Poly = [u16; N];

pub struct Tables {
    omegas: [u16; N / 2],
    omegas_inverse: [u16; N / 2],
    psis: Poly,
    psis_inverse: Poly,
}

fn power(base: u32, exponent: u32) -> u32 {
    (0..exponent).fold(1, |x, _| x * base % Q)
}

pub fn reversed(i: usize, bits: u32) -> usize {
    i.reverse_bits() >> (usize::BITS - bits)
}

impl Default for Tables {
    fn default() -> Tables {
        let r = (1 << 18) % Q;
        let inverse = |x| power(x, Q - 2);
        let in_form = |x: u32| (x * r % Q) as u16;
        let omega = |i: usize| reversed(i, 9) as u32;
        Tables {
            omegas: std::array::from_fn(|i| in_form(power(49, omega(i)))),
            omegas_inverse: std::array::from_fn(|i| in_form(power(inverse(49), omega(i)))),
            psis: std::array::from_fn(|i| in_form(power(7, reversed(i, 10) as u32))),
            psis_inverse: std::array::from_fn(|i| in_form(power(inverse(7), i as u32) * inverse(1024) % Q)),
        }
    }
}

fn montgomery(a: u32) -> u16 {
    let u = (a.wrapping_mul(12287) & ((1 << 18) - 1)) * Q;
    ((a + u) >> 18) as u16
}

fn barrett(a: u16) -> u16 {
    let u = (u32::from(a) * 5) >> 16;
    a - (u * Q) as u16
}

pub fn bit_reverse(a: &mut Poly) {
    for i in 0..N {
        let r = reversed(i, 10);
        if i < r {
            a.swap(i, r);
        }
    }
}

fn scale(a: &mut Poly, by: &Poly) {
    for (x, &y) in a.iter_mut().zip(by) {
        *x = montgomery(u32::from(*x) * u32::from(y));
    }
}

fn level(a: &mut Poly, omegas: &[u16; N / 2], distance: usize, reduce: bool) {
    for start in 0..distance {
        let mut t = 0;
        let mut j = start;
        while j < N - 1 {
            let (x, y) = (a[j], a[j + distance]);
            let sum = x + y;
            a[j] = if reduce { barrett(sum) } else { sum };
            a[j + distance] = montgomery(u32::from(omegas[t]) * (u32::from(x) + 3 * Q - u32::from(y)));
            t += 1;
            j += 2 * distance;
        }
    }
}

fn butterflies(a: &mut Poly, omegas: &[u16; N / 2]) {
    for i in (0..10).step_by(2) {
        level(a, omegas, 1 << i, false);
        level(a, omegas, 2 << i, true);
    }
}

/// The products of two transforms' entries.
pub fn pointwise(a: &Poly, b: &Poly) -> Poly {
    let r = (1 << 18) % Q;
    std::array::from_fn(|i| montgomery(u32::from(montgomery(r * r % Q * u32::from(b[i]))) * u32::from(a[i])))
}

pub fn add(a: &mut Poly, b: &Poly) {
    for (x, &y) in a.iter_mut().zip(b) {
        *x = barrett(*x + y);
    }
}

/// Down to 0..q-1.
pub fn freeze(a: &mut Poly) {
    for x in a {
        let below_2q = barrett(*x);
        *x = below_2q.min(below_2q.wrapping_sub(Q as u16));
    }
}

impl Tables {
    /// Of numbers in bit-reversed order.
    pub fn forward(&self, a: &mut Poly) {
        scale(a, &self.psis);
        butterflies(a, &self.omegas);
    }

    pub fn inverse(&self, a: &mut Poly) {
        bit_reverse(a);
        butterflies(a, &self.omegas_inverse);
        scale(a, &self.psis_inverse);
    }

    /// The product in `a`, of factors in bit-reversed order.
    pub fn product(&self, a: &mut Poly, b: &mut Poly) {
        self.forward(a);
        self.forward(b);
        *a = pointwise(a, b);
        self.inverse(a);
    }
}
