//! The calls from random bytes: Offer and Reply on what Grow and Noise make of
//! them. Random bytes are cut from the front, for seed, s, e and for s', e', e'',
//! coins. In NewHope a is lent empty and grown by the rule from the seed; elsewhere
//! it is lent whole. The rule is 14 or 16 in every scheme.

use super::{enough, offer, reply, write};
use crate::grow::grown;
use crate::hash::DIGEST;
use crate::message;
use crate::noise;
use crate::refusal::{self, Refusal};
use crate::schemes::{Family, Scheme};

/// How many public numbers are lent.
pub fn lent_public(scheme: &Scheme) -> usize {
    match scheme.family {
        Family::NewHope => 0,
        Family::Bcns | Family::Frodo => scheme.public_count(),
    }
}

/// Random bytes for so many values.
fn random_bytes(scheme: &Scheme, values: usize) -> usize {
    noise::bytes_a_value(scheme) * values
}

/// Random bytes of open.
pub fn open_bytes(scheme: &Scheme) -> usize {
    let (s, e) = (scheme.secret_count(), scheme.noise_count());
    scheme.seed_bytes() + random_bytes(scheme, s + e)
}

/// Random bytes of answer.
pub fn answer_bytes(scheme: &Scheme) -> usize {
    let (s1, e1) = (scheme.secret_count(), scheme.noise_count());
    random_bytes(scheme, s1 + e1 + scheme.last_noise_count()) + scheme.coin_bytes()
}

/// 7: the seed gives fewer than 1024 numbers. In NewHope alone.
fn public(scheme: &Scheme, rule: u32, seed: &[u8], a: &[u32]) -> Result<Vec<u32>, Refusal> {
    match scheme.family {
        Family::NewHope => enough(grown(refusal::no_rule(rule)?, seed)),
        Family::Bcns | Family::Frodo => Ok(a.to_vec()),
    }
}

/// Open: scheme, rule, public a, table, random bytes. Gives the opening message
/// and s.
pub fn open(
    number: u64,
    rule: u32,
    a: &[u32],
    table: &[u64],
    random: &[u8],
    opening: &mut [u8],
    s: &mut [i32],
) -> Result<(usize, usize), Refusal> {
    opening.fill(0);
    s.fill(0);

    let scheme = refusal::no_scheme(number)?;
    refusal::no_rule(rule)?;
    refusal::wrong_length(a.len(), lent_public(scheme))?;
    refusal::wrong_length(table.len(), noise::table_words(scheme))?;
    refusal::wrong_length(random.len(), open_bytes(scheme))?;
    refusal::short_output(opening.len(), scheme.opening_bytes())?;
    refusal::short_output(s.len(), scheme.secret_count())?;
    refusal::not_ascending(&noise::entries(table))?;
    refusal::large_public(scheme, a)?;

    let (seed, random) = random.split_at(scheme.seed_bytes());
    let (for_s, for_e) = random.split_at(random_bytes(scheme, scheme.secret_count()));
    let a = public(scheme, rule, seed, a)?;
    let own_s = noise::values(scheme, for_s, table);
    let e = noise::values(scheme, for_e, table);
    let written = offer(number, &a, &own_s, &e, seed, opening)?;
    Ok((written, write(&own_s, s)))
}

/// Answer: scheme, rule, opening message, public a, table, random bytes. Gives the
/// reply message, the key and the key's SHA3-256.
#[allow(clippy::too_many_arguments)]
pub fn answer(
    number: u64,
    rule: u32,
    opening: &[u8],
    a: &[u32],
    table: &[u64],
    random: &[u8],
    message: &mut [u8],
    key: &mut [u8],
    digest: &mut [u8],
) -> Result<(usize, usize, usize), Refusal> {
    message.fill(0);
    key.fill(0);
    digest.fill(0);

    let scheme = refusal::no_scheme(number)?;
    refusal::no_rule(rule)?;
    refusal::wrong_length(opening.len(), scheme.opening_bytes())?;
    refusal::wrong_length(a.len(), lent_public(scheme))?;
    refusal::wrong_length(table.len(), noise::table_words(scheme))?;
    refusal::wrong_length(random.len(), answer_bytes(scheme))?;
    refusal::short_output(message.len(), scheme.reply_bytes())?;
    refusal::short_output(key.len(), scheme.key_bytes)?;
    refusal::short_output(digest.len(), DIGEST)?;
    refusal::not_ascending(&noise::entries(table))?;
    refusal::large_public(scheme, a)?;
    let packed = message::opening_packed(scheme, opening);
    refusal::large_in_message(scheme, &message::numbers(scheme, packed))?;
    refusal::blank_part(packed)?;

    // NewHope's seed is the last of the opening
    let seed = &opening[opening.len() - scheme.seed_bytes()..];
    let a = public(scheme, rule, seed, a)?;
    let (for_s1, random) = random.split_at(random_bytes(scheme, scheme.secret_count()));
    let (for_e1, random) = random.split_at(random_bytes(scheme, scheme.noise_count()));
    let (for_e2, coins) = random.split_at(random_bytes(scheme, scheme.last_noise_count()));
    let [s1, e1, e2] = [for_s1, for_e1, for_e2].map(|bytes| noise::values(scheme, bytes, table));
    reply(
        number, opening, &a, &s1, &e1, &e2, coins, message, key, digest,
    )
}
