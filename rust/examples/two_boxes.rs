//! Two boxes agree on a key over a pair of sockets, a thread a box, in every
//! scheme: `cargo run --example two_boxes`.
//!
//! It shows the calls and nothing else. In NewHope the replier grows the public
//! numbers from the seed that came in the opening. A real box draws its bytes
//! from the system's generator, knows who its peer is, and hashes the raw key
//! with both messages.

use std::error::Error;
use std::io::{Read, Write};
use std::os::unix::net::UnixStream;
use std::thread;
use wimmostry::{grow, Digest, Initiator, Refusal, Replier, Rule, Scheme, Secret, BCNS_TABLE};

/// The digest of the key, which is wiped where its box is done.
type Outcome = Result<Digest, Box<dyn Error + Send + Sync>>;

/// Stands in for the system's generator: fixed bytes, for the example alone.
struct Bytes(u64);

impl Bytes {
    fn fill(&mut self, out: &mut [u8]) {
        for byte in out {
            self.0 ^= self.0 << 13;
            self.0 ^= self.0 >> 7;
            self.0 ^= self.0 << 17;
            *byte = (self.0 >> 32) as u8;
        }
    }

    fn take(&mut self, count: usize) -> Vec<u8> {
        let mut bytes = vec![0; count];
        self.fill(&mut bytes);
        bytes
    }

    /// The values of s, e, s' or e', or those of e'': as many as `room` takes,
    /// from `bytes` bytes, in BCNS by its table.
    fn secret<'b>(
        &mut self,
        scheme: Scheme,
        bytes: usize,
        room: &'b mut [i32],
    ) -> Result<Secret<'b>, Refusal> {
        // all of it in BCNS, and none elsewhere
        let table = &BCNS_TABLE[..scheme.sizes().table];
        Secret::noise(scheme, Secret::new(&mut self.take(bytes)), table, room)
    }
}

/// The public numbers: NewHope's both boxes grow from one seed by one rule, the
/// others they have from the same fixed bytes.
fn public(scheme: Scheme, seed: &[u8]) -> Result<Vec<u32>, Refusal> {
    let sizes = scheme.sizes();
    if scheme == Scheme::NewHope {
        let seed = seed.try_into().map_err(|_| Refusal::Length)?;
        let mut a = vec![0; sizes.a];
        grow(Rule::LowBits, seed, &mut a)?;
        return Ok(a);
    }
    let word = |four: &[u8]| u32::from_le_bytes([four[0], four[1], four[2], four[3]]);
    let bytes = Bytes(0x5eed).take(4 * sizes.a);
    Ok(bytes
        .chunks_exact(4)
        .map(|four| word(four) % sizes.q)
        .collect())
}

fn initiator(scheme: Scheme, mut line: UnixStream) -> Outcome {
    let (sizes, mut bytes) = (scheme.sizes(), Bytes(1));
    let seed = bytes.take(sizes.seed);
    let a = public(scheme, &seed)?;
    let (mut s, mut e) = (vec![0; sizes.s], vec![0; sizes.s]);
    let s = bytes.secret(scheme, sizes.s_bytes, &mut s)?;
    let e = bytes.secret(scheme, sizes.s_bytes, &mut e)?;

    let mut opening = vec![0; sizes.opening];
    let offered = Initiator::offer(scheme, &a, s, e, &seed, &mut opening)?;
    line.write_all(offered.opening)?;

    let mut reply = vec![0; sizes.reply];
    line.read_exact(&mut reply)?;
    let mut key = vec![0; sizes.key];
    let finished = offered.initiator.finish(&reply, &mut key)?;
    Ok(finished.digest)
}

fn replier(scheme: Scheme, mut line: UnixStream) -> Outcome {
    let (sizes, mut bytes) = (scheme.sizes(), Bytes(2));
    let (mut s1, mut e1, mut e2) = (vec![0; sizes.s], vec![0; sizes.s], vec![0; sizes.e2]);
    let s1 = bytes.secret(scheme, sizes.s_bytes, &mut s1)?;
    let e1 = bytes.secret(scheme, sizes.s_bytes, &mut e1)?;
    let e2 = bytes.secret(scheme, sizes.e2_bytes, &mut e2)?;
    let mut coins = bytes.take(sizes.coins);
    let replier = Replier::new(scheme, s1, e1, e2, Secret::new(&mut coins));

    let mut opening = vec![0; sizes.opening];
    line.read_exact(&mut opening)?;
    let a = public(scheme, &opening[sizes.opening - sizes.seed..])?;
    let (mut message, mut key) = (vec![0; sizes.reply], vec![0; sizes.key]);
    let replied = replier.reply(&opening, &a, &mut message, &mut key)?;
    line.write_all(replied.message)?;
    Ok(replied.digest)
}

fn main() -> Result<(), Box<dyn Error + Send + Sync>> {
    for scheme in Scheme::ALL {
        let (one, other) = UnixStream::pair()?;
        let box_a = thread::spawn(move || initiator(scheme, one));
        let box_b = thread::spawn(move || replier(scheme, other));
        let digest_a = box_a.join().expect("the initiator's thread")?;
        let digest_b = box_b.join().expect("the replier's thread")?;
        if digest_a != digest_b {
            return Err(format!("{scheme}: the digests differ").into());
        }
        let bytes = scheme.sizes().key;
        println!("{scheme}: both boxes have a key of {bytes} bytes with the digest {digest_a}");
    }
    Ok(())
}
