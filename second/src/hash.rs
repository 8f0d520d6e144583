//! FIPS 202, sections 4 to 6: the sponge, its padding, SHAKE-128 and SHA3-256,
//! on strings of bits.

use crate::keccak::{keccak_p, B};
use crate::packing::get_bit;

/// The longest input that is read at all (02, request c).
pub const LONGEST: usize = 65536;

/// Bytes of SHA3-256's answer.
pub const DIGEST: usize = 32;

/// Bytes of a block of SHAKE-128: its rate.
pub const SHAKE128_BLOCK: usize = (B - 256) / 8;

/// The first bytes of SHAKE-128(input): KECCAK[256](M || 1111, d).
pub fn shake128(input: &[u8], length: usize) -> Vec<u8> {
    let string = [&bits(input)[..], &[true; 4]].concat();
    bytes(&keccak(256, &string, 8 * length))
}

/// SHA3-256(input): KECCAK[512](M || 01, 256).
pub fn sha3_256(input: &[u8]) -> Vec<u8> {
    let string = [&bits(input)[..], &[false, true]].concat();
    bytes(&keccak(512, &string, 8 * DIGEST))
}

/// KECCAK[c]: Algorithm 8 with KECCAK-p[1600, 24], pad10*1 and rate 1600 - c.
fn keccak(c: usize, n: &[bool], d: usize) -> Vec<bool> {
    let r = B - c;
    let p = [n, &pad(r, n.len())].concat();
    let mut s = vec![false; B];
    for block in p.chunks_exact(r) {
        for (bit, &other) in s.iter_mut().zip(block) {
            *bit ^= other;
        }
        s = keccak_p(&s);
    }
    let mut z = s[..r].to_vec();
    while z.len() < d {
        s = keccak_p(&s);
        z.extend_from_slice(&s[..r]);
    }
    z.truncate(d);
    z
}

/// Algorithm 9, pad10*1: 1, the fewest zeros, 1, so that x divides all of it
/// behind m bits.
fn pad(x: usize, m: usize) -> Vec<bool> {
    let mut p = vec![true];
    while !(m + p.len() + 1).is_multiple_of(x) {
        p.push(false);
    }
    p.push(true);
    p
}

/// Appendix B.1: each byte's lowest bit first.
fn bits(bytes: &[u8]) -> Vec<bool> {
    (0..8 * bytes.len()).map(|at| get_bit(bytes, at)).collect()
}

fn bytes(bits: &[bool]) -> Vec<u8> {
    let byte = |eight: &[bool]| (0..8).map(|i| u8::from(eight[i]) << i).sum();
    bits.chunks_exact(8).map(byte).collect()
}
