//! 01, "The three families and their numbers": the six sets of fixed numbers,
//! written once, and the counts and lengths that follow from them.

#[derive(Clone, Copy, Debug, PartialEq, Eq)]
pub enum Family {
    Bcns,
    NewHope,
    Frodo,
}

#[derive(Debug, PartialEq, Eq)]
pub struct Scheme {
    pub number: u64,
    pub name: &'static str,
    pub family: Family,
    pub n: usize,
    pub q: i128,
    pub largest_noise: i128,
    /// Bits of a packed number (01, "Bytes on the wire").
    pub width: usize,
    pub key_bytes: usize,
    /// Frodo's B.
    pub b: Option<usize>,
}

pub const BCNS: Scheme = Scheme {
    number: 0,
    name: "BCNS",
    family: Family::Bcns,
    n: 1024,
    q: 4294967295,
    largest_noise: 51,
    width: 32,
    key_bytes: 128,
    b: None,
};

pub const NEWHOPE: Scheme = Scheme {
    number: 1,
    name: "NewHope",
    family: Family::NewHope,
    n: 1024,
    q: 12289,
    largest_noise: 16,
    width: 14,
    key_bytes: 32,
    b: None,
};

pub const FRODO_CHALLENGE: Scheme = Scheme {
    number: 2,
    name: "Frodo Challenge",
    family: Family::Frodo,
    n: 352,
    q: 2048,
    largest_noise: 3,
    width: 11,
    key_bytes: 8,
    b: Some(1),
};

pub const FRODO_CLASSICAL: Scheme = Scheme {
    number: 3,
    name: "Frodo Classical",
    family: Family::Frodo,
    n: 592,
    q: 4096,
    largest_noise: 4,
    width: 12,
    key_bytes: 16,
    b: Some(2),
};

pub const FRODO_RECOMMENDED: Scheme = Scheme {
    number: 4,
    name: "Frodo Recommended",
    family: Family::Frodo,
    n: 752,
    q: 32768,
    largest_noise: 5,
    width: 15,
    key_bytes: 32,
    b: Some(4),
};

pub const FRODO_PARANOID: Scheme = Scheme {
    number: 5,
    name: "Frodo Paranoid",
    family: Family::Frodo,
    n: 864,
    q: 32768,
    largest_noise: 6,
    width: 15,
    key_bytes: 32,
    b: Some(4),
};

pub static SIX: [Scheme; 6] = [
    BCNS,
    NEWHOPE,
    FRODO_CHALLENGE,
    FRODO_CLASSICAL,
    FRODO_RECOMMENDED,
    FRODO_PARANOID,
];

/// The scheme of a number; none if it is not 0 to 5.
pub fn scheme(number: u64) -> Option<&'static Scheme> {
    SIX.iter().find(|scheme| scheme.number == number)
}

/// 01, "The calls": how many numbers each input has.
impl Scheme {
    /// Numbers in a: a polynomial, or Frodo's A, n by n.
    pub fn public_count(&self) -> usize {
        match self.family {
            Family::Bcns | Family::NewHope => self.n,
            Family::Frodo => self.n * self.n,
        }
    }

    /// Values in s and s': a polynomial, n by 8, or 8 by n.
    pub fn secret_count(&self) -> usize {
        match self.family {
            Family::Bcns | Family::NewHope => self.n,
            Family::Frodo => self.n * 8,
        }
    }

    /// Values in e and e'.
    pub fn noise_count(&self) -> usize {
        self.secret_count()
    }

    /// Values in e'': a polynomial, or 8 by 8.
    pub fn last_noise_count(&self) -> usize {
        self.mixed_count()
    }

    pub fn seed_bytes(&self) -> usize {
        match self.family {
            Family::Bcns => 0,
            Family::NewHope => 32,
            Family::Frodo => 16,
        }
    }

    pub fn coin_bytes(&self) -> usize {
        match self.family {
            Family::Bcns => 256,
            Family::NewHope => 32,
            Family::Frodo => 0,
        }
    }
}

/// 01, "Bytes on the wire": numbers and bytes of each part.
impl Scheme {
    /// Numbers in a packed part: b or u.
    pub fn packed_count(&self) -> usize {
        self.secret_count()
    }

    pub fn packed_bytes(&self) -> usize {
        self.packed_count() * self.width / 8
    }

    /// Entries of v and of w.
    pub fn mixed_count(&self) -> usize {
        match self.family {
            Family::Bcns | Family::NewHope => self.n,
            Family::Frodo => 64,
        }
    }

    /// Each entry of v has one hint.
    pub fn hint_count(&self) -> usize {
        self.mixed_count()
    }

    pub fn hint_width(&self) -> usize {
        match self.family {
            Family::Bcns | Family::Frodo => 1,
            Family::NewHope => 2,
        }
    }

    pub fn hint_bytes(&self) -> usize {
        self.hint_count() * self.hint_width() / 8
    }

    /// An entry of the key for each entry of v, or in NewHope for each group.
    pub fn key_count(&self) -> usize {
        match self.family {
            Family::Bcns | Family::Frodo => self.mixed_count(),
            Family::NewHope => self.mixed_count() / 4,
        }
    }

    pub fn key_width(&self) -> usize {
        self.b.unwrap_or(1)
    }

    /// Coins for each entry of v in BCNS, for each group in NewHope.
    pub fn coin_width(&self) -> usize {
        match self.family {
            Family::Bcns => 2,
            Family::NewHope => 1,
            Family::Frodo => 0,
        }
    }

    pub fn opening_bytes(&self) -> usize {
        self.packed_bytes() + self.seed_bytes()
    }

    pub fn reply_bytes(&self) -> usize {
        self.packed_bytes() + self.hint_bytes()
    }
}
