//! 02, request m: the table of BCNS's noise, which document 000 describes in its
//! section IV-B and does not print, and its text. The table is computed with
//! whole numbers alone: every number is held between two of them, so that what is
//! rounded down at the end is known and not supposed.

/// Words of 64 bits in an entry, the highest first.
pub const WORDS: usize = 3;

/// The entries that are stored: the closing one, 2^192, is not.
pub const ENTRIES: usize = 51;

/// Entry i: floor(2^192 (1 + 2 (D(1) + .. + D(i))) / S), where D(x) is
/// exp(-pi x^2 / 64) and S is 8: the print's own sigma is 8 / sqrt(2 pi).
pub fn table() -> Vec<u64> {
    let one = Between::whole(1);
    let g = exponential_of_minus(&pi().over(64));
    let g_squared = g.times(&g);
    // x^2 is the sum of the first x odd numbers: D(x) is D(x - 1) times g^(2x - 1).
    let (mut d, mut factor, mut sum) = (one.clone(), g, one);
    let mut words = vec![];
    for i in 0..ENTRIES {
        if i > 0 {
            d = d.times(&factor);
            factor = factor.times(&g_squared);
            sum = sum.plus(&d).plus(&d);
        }
        words.extend(eighth_of_2_to_192(&sum));
    }
    words
}

/// The table as text: an entry a line, three words of 16 hexadecimal digits.
pub fn lines(table: &[u64]) -> Vec<String> {
    let line = |entry: &[u64]| {
        let words: Vec<String> = entry.iter().map(|word| format!("{word:016x}")).collect();
        words.join(" ")
    };
    table.chunks(WORDS).map(line).collect()
}

/// The words of such a text; a line that begins with # is a comment.
pub fn read(text: &str) -> Option<Vec<u64>> {
    let lines = text.lines().filter(|line| !line.starts_with('#'));
    let word = |word: &str| u64::from_str_radix(word, 16).ok();
    lines
        .flat_map(|line| line.split_whitespace().map(word))
        .collect()
}

/// floor(2^192 x / 8), where both ends of x give one floor.
fn eighth_of_2_to_192(x: &Between) -> [u64; WORDS] {
    let floor = |end: &Units| {
        // in units of 2^-320 it is 2^131 times too large: two limbs and three bits
        [4, 3, 2].map(|k| end.0[k] >> 3 | end.0[k + 1] << 61)
    };
    assert_eq!(floor(&x.low), floor(&x.high), "more bits are needed");
    floor(&x.low)
}

/// pi = 16 arctan(1/5) - 4 arctan(1/239), which is Machin's.
pub fn pi() -> Between {
    let fifth = arctan_of_one_over(5).scaled(16);
    fifth.minus(&arctan_of_one_over(239).scaled(4))
}

/// 1/k - 1/(3 k^3) + 1/(5 k^5) - ..
fn arctan_of_one_over(k: u64) -> Between {
    let mut power = Between::whole(1).over(k);
    let mut j = 1;
    alternating(|| {
        let term = power.over(j);
        power = power.over(k * k);
        j += 2;
        term
    })
}

/// exp(-y) = 1 - y + y^2/2 - y^3/6 + .., for y below 1.
fn exponential_of_minus(y: &Between) -> Between {
    let mut next = Between::whole(1);
    let mut j = 0;
    alternating(|| {
        let term = next.clone();
        j += 1;
        next = next.times(y).over(j);
        term
    })
}

/// The sum of terms that fall, with signs in turn: it lies between any two
/// partial sums that follow each other.
fn alternating(mut term: impl FnMut() -> Between) -> Between {
    let mut sum = Between::whole(0);
    loop {
        sum = sum.plus(&term());
        let high = sum.high.clone();
        let less = term();
        sum = sum.minus(&less);
        if less.low.is_zero() {
            return Between { low: sum.low, high };
        }
    }
}

/// A number that is at least `low` and at most `high`.
#[derive(Clone, Debug)]
pub struct Between {
    pub low: Units,
    pub high: Units,
}

impl Between {
    pub fn whole(n: u64) -> Between {
        let units = Units([0, 0, 0, 0, 0, n]);
        Between {
            low: units.clone(),
            high: units,
        }
    }

    pub fn plus(&self, other: &Between) -> Between {
        Between {
            low: self.low.plus(&other.low),
            high: self.high.plus(&other.high),
        }
    }

    pub fn minus(&self, other: &Between) -> Between {
        Between {
            low: self.low.minus(&other.high),
            high: self.high.minus(&other.low),
        }
    }

    pub fn times(&self, other: &Between) -> Between {
        Between {
            low: self.low.times(&other.low),
            high: self.high.times(&other.high).plus(&Units::ONE),
        }
    }

    pub fn over(&self, n: u64) -> Between {
        Between {
            low: self.low.over(n),
            high: self.high.over(n).plus(&Units::ONE),
        }
    }

    pub fn scaled(&self, n: u64) -> Between {
        Between {
            low: self.low.scaled(n),
            high: self.high.scaled(n),
        }
    }
}

/// So many times 2^-320, in 64-bit limbs, the lowest first.
#[derive(Clone, Debug, PartialEq, Eq)]
pub struct Units(pub [u64; LIMBS]);

const LIMBS: usize = 6;

impl Units {
    const ONE: Units = Units([1, 0, 0, 0, 0, 0]);

    /// What stands before the point.
    pub fn whole(&self) -> u64 {
        self.0[LIMBS - 1]
    }

    /// As a float, rounded.
    pub fn nearly(&self) -> f64 {
        let limbs = self.0.iter().rev();
        let sum = limbs.fold((0.0, 1.0), |(sum, unit), &limb| {
            (sum + limb as f64 * unit, unit / 2f64.powi(64))
        });
        sum.0
    }

    fn is_zero(&self) -> bool {
        self.0 == [0; LIMBS]
    }

    fn plus(&self, other: &Units) -> Units {
        let mut carry = 0;
        Units::each(|k| {
            let sum = u128::from(self.0[k]) + u128::from(other.0[k]) + carry;
            carry = sum >> 64;
            sum as u64
        })
    }

    fn minus(&self, other: &Units) -> Units {
        let mut borrowed = false;
        let difference = Units::each(|k| {
            let (less, one) = self.0[k].overflowing_sub(other.0[k]);
            let (less, two) = less.overflowing_sub(borrowed.into());
            borrowed = one || two;
            less
        });
        assert!(!borrowed, "below zero");
        difference
    }

    fn scaled(&self, n: u64) -> Units {
        let mut carry = 0;
        Units::each(|k| {
            let product = u128::from(self.0[k]) * u128::from(n) + carry;
            carry = product >> 64;
            product as u64
        })
    }

    /// The quotient, rounded down.
    fn over(&self, n: u64) -> Units {
        let mut quotient = [0; LIMBS];
        let mut rest = 0;
        for k in (0..LIMBS).rev() {
            let part = rest << 64 | u128::from(self.0[k]);
            quotient[k] = (part / u128::from(n)) as u64;
            rest = part % u128::from(n);
        }
        Units(quotient)
    }

    /// The product, rounded down: of all its limbs the five lowest are dropped.
    fn times(&self, other: &Units) -> Units {
        let mut limbs = [0; 2 * LIMBS];
        for i in 0..LIMBS {
            let mut carry = 0;
            for j in 0..LIMBS {
                let product = u128::from(self.0[i]) * u128::from(other.0[j]);
                let sum = product + u128::from(limbs[i + j]) + carry;
                limbs[i + j] = sum as u64;
                carry = sum >> 64;
            }
            limbs[i + LIMBS] = carry as u64;
        }
        assert_eq!(limbs[2 * LIMBS - 1], 0, "beyond 2^64");
        Units::each(|k| limbs[k + LIMBS - 1])
    }

    fn each(limb: impl FnMut(usize) -> u64) -> Units {
        let mut limb = limb;
        let mut limbs = [0; LIMBS];
        for (k, to) in limbs.iter_mut().enumerate() {
            *to = limb(k);
        }
        Units(limbs)
    }
}
