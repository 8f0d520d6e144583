//! The designers' own NewHope vectors (tests/data/README.md).

use crate::calls;
use crate::standards::{chacha20, hex};

struct Vector {
    seed_a: Vec<u8>,
    output_a: Vec<u8>,
    seed_b: Vec<u8>,
    output_b: Vec<u8>,
    shared_key: Vec<u8>,
}

/// The vectors of the file: names and values, five to a vector.
fn vectors(text: &str) -> Vec<Vector> {
    let lines: Vec<&str> = text.lines().filter(|line| !line.is_empty()).collect();
    let value = |line: &str, name: &str| {
        let value = line.strip_prefix(name).and_then(|l| l.strip_prefix(" = "));
        hex(value.expect(name))
    };
    let vector = |five: &[&str]| Vector {
        seed_a: value(five[0], "DRBG_SeedA"),
        output_a: value(five[1], "H_OutputA"),
        seed_b: value(five[2], "DRBG_SeedB"),
        output_b: value(five[3], "H_OutputB"),
        shared_key: value(five[4], "SharedKey"),
    };
    assert_eq!(lines.len() % 5, 0);
    lines.chunks_exact(5).map(vector).collect()
}

/// One side's draws of random bytes.
struct Draws<'a> {
    key: &'a [u8],
    number: u8,
}

impl Draws<'_> {
    fn bytes(&mut self, count: usize) -> Vec<u8> {
        let mut nonce = [0; 8];
        nonce[if self.number < 3 { 0 } else { 7 }] = self.number;
        self.number += 1;
        chacha20(self.key, nonce, count)
    }

    fn noise(&mut self) -> Vec<i32> {
        let mut values = vec![0; 1024];
        let answer = calls::noise(1, &self.bytes(4096), &[], &mut values);
        assert_eq!(answer, Ok(1024));
        values
    }
}

/// Value k moved to the index whose 10 bits are those of k reversed.
fn bit_reversed(values: Vec<i32>) -> Vec<i32> {
    let mut answer = vec![0; 1024];
    for (k, value) in values.into_iter().enumerate() {
        answer[k.reverse_bits() >> (usize::BITS - 10)] = value;
    }
    answer
}

fn hashed(message: &[u8]) -> [u8; 32] {
    let mut digest = [0; 32];
    assert_eq!(calls::sha3_256(message, &mut digest), Ok(32));
    digest
}

fn reproduces(vector: &Vector) {
    let (seed, key_a) = vector.seed_a.split_at(32);
    let mut a = vec![0; 1024];
    assert_eq!(calls::grow(14, seed, &mut a), Ok(1024));

    let mut draws = Draws {
        key: key_a,
        number: 0,
    };
    let s = bit_reversed(draws.noise());
    let e = bit_reversed(draws.noise());
    let mut opening = vec![0; 1824];
    assert_eq!(calls::offer(1, &a, &s, &e, seed, &mut opening), Ok(1824));
    assert_eq!(hashed(&opening), vector.output_a[..]);

    let mut draws = Draws {
        key: &vector.seed_b,
        number: 0,
    };
    let s1 = bit_reversed(draws.noise());
    let e1 = bit_reversed(draws.noise());
    let e2 = draws.noise();
    let coins = draws.bytes(32);
    let (mut reply, mut key, mut digest) = (vec![0; 2048], [0; 32], [0; 32]);
    let answer = calls::reply(
        1,
        &opening,
        &a,
        &s1,
        &e1,
        &e2,
        &coins,
        &mut reply,
        &mut key,
        &mut digest,
    );
    assert_eq!(answer, Ok((2048, 32, 32)));
    assert_eq!(hashed(&reply), vector.output_b[..]);
    assert_eq!(digest, vector.shared_key[..]);

    let (mut peer, mut peer_digest) = ([0; 32], [0; 32]);
    let answer = calls::finish(1, &reply, &s, &mut peer, &mut peer_digest);
    let (key_written, digest_written, slack) = answer.unwrap();
    assert_eq!((key_written, digest_written), (32, 32));
    assert_eq!((slack.largest, slack.index), (0, 0));
    assert_eq!((peer, peer_digest), (key, digest));
}

#[test]
fn published_vectors() {
    let vectors = vectors(include_str!("../data/newhope-published.txt"));
    assert_eq!(vectors.len(), 40);
    for vector in &vectors {
        reproduces(vector);
    }
}
