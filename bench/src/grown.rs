//! NewHope from a seed and random bytes to digests, through the package
//! `wimmostry`: each end grows the public numbers and makes its noise itself.

use crate::draw::Draw;
use crate::plain::transform::reversed;
use wimmostry::raw;

/// They are taken in turn: a processor learns by heart which words of one
/// seed's stream are passed over, and a box has another each time.
pub fn seeds() -> [[u8; 32]; 64] {
    std::array::from_fn(|k| Draw::new(800 + k as u32).bytes(32).try_into().expect("32 bytes"))
}

/// What the two ends draw besides the seed, in the order in which Botan does.
#[derive(Clone)]
pub struct Random {
    /// s and e.
    pub initiator: [u8; 8192],
    /// s', e', e'' and the coins.
    pub replier: [u8; 12320],
}

/// The four bytes of value k at the value whose 10 bits are those of k reversed.
fn reorder(bytes: &mut [u8]) {
    let before = bytes.to_vec();
    for (k, piece) in before.chunks_exact(4).enumerate() {
        bytes[4 * reversed(k, 10)..][..4].copy_from_slice(piece);
    }
}

impl Random {
    pub fn drawn(seed: u32) -> Random {
        let mut draw = Draw::new(seed);
        let (initiator, replier) = (draw.bytes(8192), draw.bytes(12320));
        Random { initiator: initiator.try_into().expect("8,192 bytes"), replier: replier.try_into().expect("12,320 bytes") }
    }

    /// As our calls take it to make the same messages: what Botan transforms, it
    /// takes in bit-reversed order.
    pub fn reordered(&self) -> Random {
        let mut own = self.clone();
        own.initiator.chunks_exact_mut(4096).for_each(reorder);
        own.replier[..8192].chunks_exact_mut(4096).for_each(reorder);
        own
    }
}

fn grow(seed: &[u8]) -> [u32; 1024] {
    let mut a = [0; 1024];
    assert!(raw::grow(14, seed, &mut a).is_ok());
    a
}

fn noise(bytes: &[u8]) -> [i32; 1024] {
    let mut values = [0; 1024];
    assert!(raw::noise(1, bytes, &[], &mut values).is_ok());
    values
}

pub struct Grown(pub Random);

impl Grown {
    /// Gives s, which Finish takes.
    pub fn offer(&self, seed: &[u8; 32], opening: &mut [u8; 1824]) -> [i32; 1024] {
        let (first, second) = self.0.initiator.split_at(4096);
        let (a, s, e) = (grow(seed), noise(first), noise(second));
        assert!(raw::offer(1, &a, &s, &e, seed, opening).is_ok());
        s
    }

    pub fn reply(&self, opening: &[u8; 1824], message: &mut [u8; 2048], digest: &mut [u8; 32]) {
        let (bytes, coins) = self.0.replier.split_at(12288);
        let (a, s1, e1, e2) = (grow(&opening[1792..]), noise(&bytes[..4096]), noise(&bytes[4096..8192]), noise(&bytes[8192..]));
        assert!(raw::reply(1, opening, &a, &s1, &e1, &e2, coins, message, &mut [0; 32], digest).is_ok());
    }

    pub fn finish(&self, reply: &[u8; 2048], s: &[i32; 1024], digest: &mut [u8; 32]) {
        assert!(raw::finish(1, reply, s, &mut [0; 32], digest).is_ok());
    }
}
