use crate::Refusal;
use core::fmt;

/// The six schemes by name. A `match` has a case for those of a later version.
///
/// ```compile_fail,E0004
/// # use wimmostry::Scheme;
/// # fn frodo(scheme: Scheme) -> bool {
/// match scheme {
///     Scheme::Bcns | Scheme::NewHope => false,
///     Scheme::FrodoChallenge | Scheme::FrodoClassical => true,
///     Scheme::FrodoRecommended | Scheme::FrodoParanoid => true,
/// }
/// # }
/// ```
#[derive(Clone, Copy, Debug, PartialEq, Eq, Hash)]
#[non_exhaustive]
pub enum Scheme {
    /// 0: BCNS.
    Bcns,
    /// 1: NewHope.
    NewHope,
    /// 2: Frodo Challenge.
    FrodoChallenge,
    /// 3: Frodo Classical.
    FrodoClassical,
    /// 4: Frodo Recommended.
    FrodoRecommended,
    /// 5: Frodo Paranoid.
    FrodoParanoid,
}

/// The fixed numbers of a scheme: what each input and output counts.
#[derive(Clone, Copy, Debug, PartialEq, Eq)]
pub struct Sizes {
    /// Public numbers and the numbers of a message are below it.
    pub q: u32,
    /// Secrets and noise lie from -noise to noise.
    pub noise: i32,
    /// Entries of a; in Frodo the rows of A, one after another.
    pub a: usize,
    /// Entries of s, e, s' and e' each.
    pub s: usize,
    /// Entries of e''.
    pub e2: usize,
    /// Bytes of the seed.
    pub seed: usize,
    /// Bytes of the coins.
    pub coins: usize,
    /// Bytes of the opening message.
    pub opening: usize,
    /// Bytes of the reply message.
    pub reply: usize,
    /// Bytes of the key.
    pub key: usize,
    /// Random bytes for one of s, e, s' and e'.
    pub s_bytes: usize,
    /// Random bytes for e''.
    pub e2_bytes: usize,
    /// Words of the table by which noise is drawn; 0 but in BCNS.
    pub table: usize,
    /// How far apart the two values may lie, in the unit of the slack, for keys
    /// that are proved to agree; 0 in NewHope, which has no slack.
    pub margin: u64,
    /// Numbers of a row of A, and rows of A; 0 but in Frodo.
    pub row: usize,
    /// Numbers of a running state by rows; 0 but in Frodo.
    pub state: usize,
    /// Entries of a that the calls from random bytes are lent; 0 in NewHope.
    pub lent_a: usize,
    /// Random bytes for an opening.
    pub open_bytes: usize,
    /// Random bytes for an answer.
    pub answer_bytes: usize,
}

impl Scheme {
    /// All of them, in the order of their numbers.
    pub const ALL: [Scheme; 6] = [
        Scheme::Bcns,
        Scheme::NewHope,
        Scheme::FrodoChallenge,
        Scheme::FrodoClassical,
        Scheme::FrodoRecommended,
        Scheme::FrodoParanoid,
    ];

    /// The number by which a call knows the scheme, 0 to 5.
    #[must_use]
    pub const fn number(self) -> u32 {
        self as u32
    }

    /// The name as it is written.
    #[must_use]
    pub const fn name(self) -> &'static str {
        match self {
            Scheme::Bcns => "BCNS",
            Scheme::NewHope => "NewHope",
            Scheme::FrodoChallenge => "Frodo Challenge",
            Scheme::FrodoClassical => "Frodo Classical",
            Scheme::FrodoRecommended => "Frodo Recommended",
            Scheme::FrodoParanoid => "Frodo Paranoid",
        }
    }

    /// Its fixed numbers.
    #[must_use]
    pub const fn sizes(self) -> Sizes {
        match self {
            Scheme::Bcns => Sizes {
                q: 4294967295,
                noise: 51,
                a: 1024,
                s: 1024,
                e2: 1024,
                seed: 0,
                coins: 256,
                opening: 4096,
                reply: 4096 + 128,
                key: 128,
                s_bytes: 25 * 1024,
                e2_bytes: 25 * 1024,
                table: 3 * 51,
                margin: 1073741823,
                row: 0,
                state: 0,
                lent_a: 1024,
                open_bytes: 2 * 25 * 1024,
                answer_bytes: 3 * 25 * 1024 + 256,
            },
            Scheme::NewHope => Sizes {
                q: 12289,
                noise: 16,
                a: 1024,
                s: 1024,
                e2: 1024,
                seed: 32,
                coins: 32,
                opening: 1792 + 32,
                reply: 1792 + 256,
                key: 32,
                s_bytes: 4096,
                e2_bytes: 4096,
                table: 0,
                margin: 0,
                row: 0,
                state: 0,
                lent_a: 0,
                open_bytes: 32 + 2 * 4096,
                answer_bytes: 3 * 4096 + 32,
            },
            Scheme::FrodoChallenge => frodo(352, 2048, 3, 11, 8),
            Scheme::FrodoClassical => frodo(592, 4096, 4, 12, 16),
            Scheme::FrodoRecommended => frodo(752, 32768, 5, 15, 32),
            Scheme::FrodoParanoid => frodo(864, 32768, 6, 15, 32),
        }
    }
}

/// Frodo over n, q, the largest noise, the bits of a packed number and the key,
/// whose bits tell the margin: a quarter of the rounding interval.
const fn frodo(n: usize, q: u32, noise: i32, width: usize, key: usize) -> Sizes {
    Sizes {
        q,
        noise,
        a: n * n,
        s: 8 * n,
        e2: 64,
        seed: 16,
        coins: 0,
        opening: 16 + n * width,
        reply: n * width + 8,
        key,
        s_bytes: 16 * n,
        e2_bytes: 128,
        table: 0,
        margin: (q >> (key / 8)) as u64 / 4,
        row: n,
        state: 16 * n + 67,
        lent_a: n * n,
        open_bytes: 16 + 2 * 16 * n,
        answer_bytes: 2 * 16 * n + 128,
    }
}

impl Sizes {
    /// The largest of each over all schemes: buffers of these sizes serve any.
    pub const LARGEST: Sizes = Sizes {
        q: 4294967295,
        noise: 51,
        a: 864 * 864,
        s: 8 * 864,
        e2: 1024,
        seed: 32,
        coins: 256,
        opening: 16 + 864 * 15,
        reply: 864 * 15 + 8,
        key: 128,
        s_bytes: 25 * 1024,
        e2_bytes: 25 * 1024,
        table: 3 * 51,
        margin: 1073741823,
        row: 864,
        state: 16 * 864 + 67,
        lent_a: 864 * 864,
        open_bytes: 2 * 25 * 1024,
        answer_bytes: 3 * 25 * 1024 + 256,
    };
}

impl TryFrom<u32> for Scheme {
    type Error = Refusal;

    /// The scheme of a number, or refusal 1.
    fn try_from(number: u32) -> Result<Scheme, Refusal> {
        let known = usize::try_from(number)
            .ok()
            .and_then(|k| Scheme::ALL.get(k));
        known.copied().ok_or(Refusal::NoScheme)
    }
}

impl fmt::Display for Scheme {
    fn fmt(&self, f: &mut fmt::Formatter) -> fmt::Result {
        f.pad(self.name())
    }
}
