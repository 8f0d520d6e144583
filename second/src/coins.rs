//! 01, "The calls" and "Bytes on the wire": coins.

use crate::packing::unpack;
use crate::schemes::{Family, Scheme};

/// Two bits an entry in BCNS, one bit a group in NewHope, none in Frodo.
pub fn read(scheme: &Scheme, bytes: &[u8]) -> Vec<u32> {
    match scheme.family {
        Family::Bcns | Family::NewHope => unpack(bytes, scheme.coin_width()),
        Family::Frodo => vec![],
    }
}
