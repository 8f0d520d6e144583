use super::{finish, offer, reply};
use crate::hash::DIGEST;
use crate::packing::get_bit;
use crate::reconcile::Slack;
use crate::refusal::{self, Refusal};

#[derive(Clone, Copy, Debug, PartialEq, Eq)]
pub enum Bench {
    Agree,
    /// The first differing bit of the packed keys, lowest bit first.
    Differ(usize),
}

/// Bench: both ends on lent secrets. Offer's refusals come first, then
/// Reply's; messages and keys stay inside. Finish's slack is passed on, whether
/// the keys agree or differ. The keys are compared in BCNS too, where request i
/// of 02 has that they never differ: so every run of this program tries it.
#[allow(clippy::too_many_arguments)]
pub fn bench(
    scheme: u64,
    a: &[u32],
    s: &[i32],
    e: &[i32],
    seed: &[u8],
    s1: &[i32],
    e1: &[i32],
    e2: &[i32],
    coins: &[u8],
) -> Result<(Bench, Slack), Refusal> {
    let fixed = refusal::no_scheme(scheme)?;
    let mut opening = vec![0; fixed.opening_bytes()];
    let mut answer = vec![0; fixed.reply_bytes()];
    let mut key = vec![0; fixed.key_bytes];
    let mut peer = vec![0; fixed.key_bytes];
    let mut digest = [0; DIGEST];
    offer(scheme, a, s, e, seed, &mut opening)?;
    reply(
        scheme,
        &opening,
        a,
        s1,
        e1,
        e2,
        coins,
        &mut answer,
        &mut key,
        &mut digest,
    )?;
    let (_, _, slack) = finish(scheme, &answer, s, &mut peer, &mut digest)?;
    Ok((compare(&key, &peer), slack))
}

/// Whether two keys of the same length agree.
fn compare(key: &[u8], peer: &[u8]) -> Bench {
    let differs = |&bit: &usize| get_bit(key, bit) != get_bit(peer, bit);
    match (0..8 * key.len()).find(differs) {
        None => Bench::Agree,
        Some(bit) => Bench::Differ(bit),
    }
}
