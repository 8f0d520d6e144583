//! Whole numbers of any size, from what they leave modulo enough primes.

/// The field of a prime p below 2^62. Its elements are kept 2^64 times too large,
/// so that a product is reduced without a division.
#[derive(Clone, Copy)]
pub struct Field {
    pub p: u64,
    /// -1/p modulo 2^64.
    minus_inverse: u64,
    /// 2^128 modulo p.
    square: u64,
}

impl Field {
    pub fn new(p: u64) -> Field {
        // each step doubles the bits of the inverse that are right
        let mut inverse = 1u64;
        for _ in 0..6 {
            inverse = inverse.wrapping_mul(2u64.wrapping_sub(p.wrapping_mul(inverse)));
        }
        let half = ((1u128 << 64) % u128::from(p)) as u64;
        let square = (u128::from(half) * u128::from(half) % u128::from(p)) as u64;
        Field {
            p,
            minus_inverse: inverse.wrapping_neg(),
            square,
        }
    }

    /// The element of a number.
    pub fn of(&self, n: u64) -> u64 {
        self.times(n % self.p, self.square)
    }

    /// The number of an element.
    pub fn number(&self, x: u64) -> u64 {
        self.times(x, 1)
    }

    pub fn times(&self, x: u64, y: u64) -> u64 {
        let product = u128::from(x) * u128::from(y);
        let m = (product as u64).wrapping_mul(self.minus_inverse);
        let sum = (product + u128::from(m) * u128::from(self.p)) >> 64;
        self.reduced(sum as u64)
    }

    pub fn plus(&self, x: u64, y: u64) -> u64 {
        self.reduced(x + y)
    }

    pub fn minus(&self, x: u64, y: u64) -> u64 {
        self.reduced(x + self.p - y)
    }

    fn reduced(&self, x: u64) -> u64 {
        if x >= self.p {
            x - self.p
        } else {
            x
        }
    }

    pub fn power(&self, x: u64, mut n: u64) -> u64 {
        let (mut answer, mut square) = (self.of(1), x);
        while n > 0 {
            if n % 2 == 1 {
                answer = self.times(answer, square);
            }
            square = self.times(square, square);
            n /= 2;
        }
        answer
    }

    pub fn inverse(&self, x: u64) -> u64 {
        self.power(x, self.p - 2)
    }

    /// The inverses of all of these, by one inverse of their product.
    pub fn inverses(&self, all: &[u64]) -> Vec<u64> {
        let mut before = vec![self.of(1)];
        for &x in all {
            before.push(self.times(before[before.len() - 1], x));
        }
        let mut rest = self.inverse(before[all.len()]);
        let mut inverses = vec![0; all.len()];
        for (k, &x) in all.iter().enumerate().rev() {
            inverses[k] = self.times(rest, before[k]);
            rest = self.times(rest, x);
        }
        inverses
    }

    /// A number whose powers are 1 only at multiples of the order, which is a
    /// power of two that divides p - 1.
    pub fn root(&self, order: u64) -> u64 {
        let minus_one = self.minus(0, self.of(1));
        let roots = (2..).map(|x| self.power(self.of(x), (self.p - 1) / order));
        let whole = |&root: &u64| self.power(root, order / 2) == minus_one;
        roots.into_iter().find(whole).expect("a field has one")
    }
}

/// Primes that are 1 modulo 2^20, from 2^62 down, with a product above 2^bits.
pub fn primes(bits: u32) -> Vec<Field> {
    let count = bits as usize / 61 + 1;
    let numbers = (1..1u64 << 42).rev().map(|k| (k << 20) + 1);
    let fields = numbers.filter(|&p| p > 1 << 61 && is_prime(p));
    fields.map(Field::new).take(count).collect()
}

/// Miller's and Rabin's test; these bases are enough below 2^64.
pub fn is_prime(p: u64) -> bool {
    const BASES: [u64; 12] = [2, 3, 5, 7, 11, 13, 17, 19, 23, 29, 31, 37];
    if p < 2
        || BASES
            .iter()
            .any(|&small| p != small && p.is_multiple_of(small))
    {
        return false;
    }
    if p <= 37 {
        return true;
    }
    let times = |x: u64, y: u64| (u128::from(x) * u128::from(y) % u128::from(p)) as u64;
    let odd = (p - 1) >> (p - 1).trailing_zeros();
    BASES.iter().all(|&base| {
        let (mut x, mut square, mut n) = (1, base, odd);
        while n > 0 {
            if n % 2 == 1 {
                x = times(x, square);
            }
            square = times(square, square);
            n /= 2;
        }
        let mut n = odd;
        while x != 1 && x != p - 1 && n < (p - 1) / 2 {
            x = times(x, x);
            n *= 2;
        }
        x == p - 1 || (x == 1 && n == odd)
    })
}

/// A whole number in 64-bit limbs, the lowest first.
#[derive(Clone, Debug, PartialEq, Eq)]
pub struct Big(pub Vec<u64>);

impl Big {
    /// The number below the product of all primes that leaves these modulo each.
    pub fn from_remainders(fields: &[Field], remainders: &[u64]) -> Big {
        // it is d0 + p0 (d1 + p1 (d2 + ..)): each digit from those before it
        let mut digits: Vec<u64> = vec![];
        for (field, &remainder) in fields.iter().zip(remainders) {
            let (mut known, mut product) = (0, field.of(1));
            for (&digit, before) in digits.iter().zip(fields) {
                known = field.plus(known, field.times(field.of(digit), product));
                product = field.times(product, field.of(before.p));
            }
            let rest = field.minus(field.of(remainder), known);
            digits.push(field.number(field.times(rest, field.inverse(product))));
        }
        let mut answer = Big(vec![]);
        for (field, &digit) in fields.iter().zip(&digits).rev() {
            answer.times_plus(field.p, digit);
        }
        answer
    }

    fn times_plus(&mut self, factor: u64, more: u64) {
        let mut carry = u128::from(more);
        for limb in &mut self.0 {
            carry += u128::from(*limb) * u128::from(factor);
            *limb = carry as u64;
            carry >>= 64;
        }
        if carry > 0 {
            self.0.push(carry as u64);
        }
    }

    /// Its logarithm to base 2, from its highest 128 bits.
    pub fn log(&self) -> f64 {
        let limbs = self.0.iter().rev().take(2);
        let top = limbs.fold(0.0, |top, &limb| top * 2f64.powi(64) + limb as f64);
        let below = 64 * self.0.len().saturating_sub(2) as i32;
        top.log2() + f64::from(below)
    }
}

/// A probability: a whole number over a power of two.
#[derive(Clone, Debug, PartialEq, Eq)]
pub struct Chance {
    pub over: Big,
    /// The exponent of the power.
    pub bits: u32,
}

impl Chance {
    /// x with two digits, where 2^-x is the chance times 2^more.
    pub fn minus_log(&self, more: u32) -> String {
        let x = f64::from(self.bits) - self.over.log() - f64::from(more);
        format!("{x:.2}")
    }
}
