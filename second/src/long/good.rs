//! Each call with its good inputs, which are 01's in 01's order.

use super::cases::Case;
use super::input::Input;
use crate::hash::DIGEST;
use crate::schemes::{Family, Scheme};
use crate::vectors::draw::Entries;

#[derive(Clone, Copy, Debug, PartialEq, Eq)]
pub enum Call {
    Offer,
    Reply,
    Finish,
    Bench,
    Noise,
    Expand { rule: u32 },
    Grow { rule: u32 },
    Shake128,
    Sha3256,
}

/// Where e and the coins stand among Bench's inputs.
pub const E_OF_BENCH: usize = 2;
pub const COINS_OF_BENCH: usize = 7;

/// A call, its good inputs and the length of each answer.
pub struct Good {
    pub call: Call,
    /// None in Expand, Grow and the hashes.
    pub scheme: Option<&'static Scheme>,
    pub inputs: Vec<Input>,
    pub answers: Vec<usize>,
}

impl Good {
    /// Every input has its fixed length, every output just the room of its
    /// answer.
    pub fn case(&self) -> Case {
        Case {
            scheme: self.scheme.map_or(0, |scheme| scheme.number),
            lengths: self.inputs.iter().map(|input| input.n).collect(),
            rooms: self.answers.clone(),
            zeros: vec![],
            changes: vec![],
            hints: None,
        }
    }
}

/// The lists of one scheme.
pub struct Lists {
    scheme: &'static Scheme,
    a: Input,
    s: Input,
    e: Input,
    seed: Input,
    s1: Input,
    e1: Input,
    e2: Input,
    coins: Input,
}

impl Lists {
    pub fn drawn(scheme: &'static Scheme) -> Lists {
        Lists::with_values(scheme, 1)
    }

    /// Secrets and noise reach as far as the scheme's largest.
    pub fn wide(scheme: &'static Scheme) -> Lists {
        Lists::with_values(scheme, scheme.largest_noise as i64)
    }

    /// Secrets and noise are of at most b.
    fn with_values(scheme: &'static Scheme, b: i64) -> Lists {
        let first = 100 * scheme.number;
        let q = scheme.q as i64;
        let public = Entries::PublicNumbers { q };
        let values = |at, n| Input::list(n, first + 2, at, Entries::ValuesOfAtMost(b));
        let bytes = |at, n| Input::list(n, first + 3, at, Entries::Bytes);
        Lists {
            scheme,
            a: Input::list(scheme.public_count(), first + 1, 0, public),
            s: values(0, scheme.secret_count()),
            e: values(6944, scheme.noise_count()),
            seed: bytes(0, scheme.seed_bytes()),
            s1: values(13888, scheme.secret_count()),
            e1: values(20832, scheme.noise_count()),
            e2: values(27776, scheme.last_noise_count()),
            coins: bytes(288, scheme.coin_bytes()),
        }
    }

    pub fn offer(&self) -> Good {
        let inputs = [&self.a, &self.s, &self.e, &self.seed];
        self.good(Call::Offer, &inputs, vec![self.scheme.opening_bytes()])
    }

    pub fn reply(&self, opening: Vec<i64>) -> Good {
        let start = match self.scheme.family {
            Family::Bcns | Family::NewHope => 0,
            Family::Frodo => self.scheme.seed_bytes(),
        };
        let opening = Input::message(self.scheme, start, opening);
        let inputs = [&opening, &self.a, &self.s1, &self.e1, &self.e2, &self.coins];
        let answers = vec![self.scheme.reply_bytes(), self.scheme.key_bytes, DIGEST];
        self.good(Call::Reply, &inputs, answers)
    }

    pub fn finish(&self, reply: Vec<i64>) -> Good {
        let reply = Input::message(self.scheme, 0, reply);
        let inputs = [&reply, &self.s];
        self.good(Call::Finish, &inputs, vec![self.scheme.key_bytes, DIGEST])
    }

    pub fn bench(&self) -> Good {
        let l = self;
        let inputs = [&l.a, &l.s, &l.e, &l.seed, &l.s1, &l.e1, &l.e2, &l.coins];
        self.good(Call::Bench, &inputs, vec![])
    }

    fn good(&self, call: Call, inputs: &[&Input], answers: Vec<usize>) -> Good {
        Good {
            call,
            scheme: Some(self.scheme),
            inputs: inputs.iter().map(|&input| input.clone()).collect(),
            answers,
        }
    }
}
