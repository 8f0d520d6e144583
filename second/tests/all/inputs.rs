//! Valid inputs of all calls of a scheme.

use crate::generator::Generator;
use second::calls::{self, Bench};
use second::hash::sha3_256;
use second::reconcile::Slack;
use second::refusal::Refusal;
use second::schemes::{Family, Scheme};

#[derive(Clone)]
pub struct Inputs {
    pub scheme: &'static Scheme,
    pub a: Vec<u32>,
    pub s: Vec<i32>,
    pub e: Vec<i32>,
    pub seed: Vec<u8>,
    pub s1: Vec<i32>,
    pub e1: Vec<i32>,
    pub e2: Vec<i32>,
    pub coins: Vec<u8>,
}

impl Inputs {
    /// Random ones, the noise as its scheme has it.
    pub fn random(scheme: &'static Scheme, generator: &mut Generator) -> Inputs {
        let secrets = scheme.secret_count();
        Inputs {
            scheme,
            a: numbers(generator, scheme.public_count(), scheme.q),
            s: noise(generator, scheme, secrets),
            e: noise(generator, scheme, secrets),
            seed: generator.bytes(scheme.seed_bytes()),
            s1: noise(generator, scheme, secrets),
            e1: noise(generator, scheme, secrets),
            e2: noise(generator, scheme, scheme.last_noise_count()),
            coins: generator.bytes(scheme.coin_bytes()),
        }
    }

    /// All zero.
    pub fn zero(scheme: &'static Scheme) -> Inputs {
        let secrets = vec![0; scheme.secret_count()];
        Inputs {
            scheme,
            a: vec![0; scheme.public_count()],
            s: secrets.clone(),
            e: secrets.clone(),
            seed: vec![0; scheme.seed_bytes()],
            s1: secrets.clone(),
            e1: secrets,
            e2: vec![0; scheme.last_noise_count()],
            coins: vec![0; scheme.coin_bytes()],
        }
    }

    /// All zero but the last values of e and e': else both messages were blank.
    pub fn sparse(scheme: &'static Scheme) -> Inputs {
        let mut inputs = Inputs::zero(scheme);
        let last = scheme.noise_count() - 1;
        (inputs.e[last], inputs.e1[last]) = (1, 1);
        inputs
    }

    pub fn offer(&self, opening: &mut [u8]) -> Result<usize, Refusal> {
        let i = self;
        calls::offer(i.scheme.number, &i.a, &i.s, &i.e, &i.seed, opening)
    }

    pub fn reply(
        &self,
        opening: &[u8],
        reply: &mut [u8],
        key: &mut [u8],
        digest: &mut [u8],
    ) -> Result<(usize, usize, usize), Refusal> {
        let i = self;
        let number = i.scheme.number;
        calls::reply(
            number, opening, &i.a, &i.s1, &i.e1, &i.e2, &i.coins, reply, key, digest,
        )
    }

    pub fn finish(
        &self,
        reply: &[u8],
        key: &mut [u8],
        digest: &mut [u8],
    ) -> Result<(usize, usize), Refusal> {
        let answer = calls::finish(self.scheme.number, reply, &self.s, key, digest);
        answer.map(|(key, digest, _)| (key, digest))
    }

    pub fn bench(&self) -> Result<Bench, Refusal> {
        self.bench_with_slack().map(|(compared, _)| compared)
    }

    pub fn bench_with_slack(&self) -> Result<(Bench, Slack), Refusal> {
        let i = self;
        let number = i.scheme.number;
        calls::bench(
            number, &i.a, &i.s, &i.e, &i.seed, &i.s1, &i.e1, &i.e2, &i.coins,
        )
    }

    /// The initiator's slack; no refusal expected.
    pub fn slack(&self, reply: &[u8]) -> Slack {
        let (mut key, mut digest) = (vec![0; self.scheme.key_bytes], [0; 32]);
        let answer = calls::finish(self.scheme.number, reply, &self.s, &mut key, &mut digest);
        answer.unwrap().2
    }

    /// The opening; no refusal expected.
    pub fn opening(&self) -> Vec<u8> {
        let mut opening = vec![0xAA; self.scheme.opening_bytes()];
        assert_eq!(self.offer(&mut opening), Ok(opening.len()));
        opening
    }

    /// The reply and the key; no refusal expected, and the key's digest.
    pub fn reply_and_key(&self, opening: &[u8]) -> (Vec<u8>, Vec<u8>) {
        let mut reply = vec![0xAA; self.scheme.reply_bytes()];
        let mut key = vec![0xAA; self.scheme.key_bytes];
        let mut digest = [0xAA; 32];
        let written = (reply.len(), key.len(), 32);
        let answer = self.reply(opening, &mut reply, &mut key, &mut digest);
        assert_eq!(answer, Ok(written));
        assert_eq!(digest, sha3_256(&key)[..]);
        (reply, key)
    }

    /// The initiator's key; no refusal expected, and the key's digest.
    pub fn peer(&self, reply: &[u8]) -> Vec<u8> {
        let mut key = vec![0xAA; self.scheme.key_bytes];
        let mut digest = [0xAA; 32];
        let written = (key.len(), 32);
        assert_eq!(self.finish(reply, &mut key, &mut digest), Ok(written));
        assert_eq!(digest, sha3_256(&key)[..]);
        key
    }
}

/// Random numbers below q.
pub fn numbers(generator: &mut Generator, count: usize, q: i128) -> Vec<u32> {
    let number = |_| generator.below(q as u64) as u32;
    (0..count).map(number).collect()
}

/// Random noise; BCNS's uniform from -51 to 51, since its own is seldom so large.
pub fn noise(generator: &mut Generator, scheme: &Scheme, count: usize) -> Vec<i32> {
    if scheme.family == Family::Bcns {
        return (0..count)
            .map(|_| generator.below(103) as i32 - 51)
            .collect();
    }
    let bytes = generator.bytes(count * second::noise::bytes_a_value(scheme));
    second::noise::values(scheme, &bytes, &[])
}
