//! 01, "Bytes on the wire": the opening and the reply.

use crate::packing::{pack, unpack};
use crate::schemes::{Family, Scheme};
use crate::transform;

/// The opening message: b and the seed, which Frodo sets first.
pub fn opening(scheme: &Scheme, b: &[i128], seed: &[u8]) -> Vec<u8> {
    let packed = packed_part(scheme, b);
    match scheme.family {
        Family::Bcns | Family::NewHope => [&packed, seed].concat(),
        Family::Frodo => [seed, &packed].concat(),
    }
}

/// The packed part of an opening message; its seed is unread.
pub fn opening_packed<'a>(scheme: &Scheme, opening: &'a [u8]) -> &'a [u8] {
    match scheme.family {
        Family::Bcns | Family::NewHope => &opening[..scheme.packed_bytes()],
        Family::Frodo => &opening[scheme.seed_bytes()..],
    }
}

/// The reply message: u and the hints.
pub fn reply(scheme: &Scheme, u: &[i128], hints: &[u32]) -> Vec<u8> {
    let packed = packed_part(scheme, u);
    let hints = pack(hints, scheme.hint_width());
    [packed, hints].concat()
}

/// The packed part of a reply message.
pub fn reply_packed<'a>(scheme: &Scheme, reply: &'a [u8]) -> &'a [u8] {
    &reply[..scheme.packed_bytes()]
}

/// The numbers of a packed part.
pub fn numbers(scheme: &Scheme, packed: &[u8]) -> Vec<u32> {
    unpack(packed, scheme.width)
}

/// The hints of a reply message.
pub fn reply_hints(scheme: &Scheme, reply: &[u8]) -> Vec<u32> {
    unpack(&reply[scheme.packed_bytes()..], scheme.hint_width())
}

/// The key bytes of the key's entries.
pub fn key(scheme: &Scheme, entries: &[u32]) -> Vec<u8> {
    pack(entries, scheme.key_width())
}

/// The polynomial or matrix whose numbers these are, lent or sent: NewHope's
/// are transformed.
pub fn plain(scheme: &Scheme, numbers: &[u32]) -> Vec<i128> {
    let numbers: Vec<i128> = numbers.iter().map(|&x| i128::from(x)).collect();
    match scheme.family {
        Family::Bcns | Family::Frodo => numbers,
        Family::NewHope => transform::inverse(&numbers),
    }
}

/// The packed numbers of a polynomial or matrix: NewHope packs the transform.
fn packed_part(scheme: &Scheme, part: &[i128]) -> Vec<u8> {
    let part = match scheme.family {
        Family::Bcns | Family::Frodo => part.to_vec(),
        Family::NewHope => transform::transform(part),
    };
    let numbers: Vec<u32> = part.iter().map(|&x| u32::try_from(x).unwrap()).collect();
    pack(&numbers, scheme.width)
}
