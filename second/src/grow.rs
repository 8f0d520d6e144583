//! 02, request c: NewHope's public polynomial from its seed.

use crate::expand::{taken, Rule};
use crate::hash::{shake128, SHAKE128_BLOCK};

/// How many blocks of SHAKE-128 are read.
const BLOCKS: usize = 24;

/// The first 1024 numbers taken from those blocks; fewer if they ran out.
pub fn grown(rule: Rule, seed: &[u8]) -> Vec<u32> {
    taken(rule, &shake128(seed, BLOCKS * SHAKE128_BLOCK))
}
