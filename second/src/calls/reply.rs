use super::{signed, write};
use crate::hash::{sha3_256, DIGEST};
use crate::reconcile::replier;
use crate::refusal::{self, Refusal};
use crate::{message, mix};

/// Reply: scheme, opening message, public a, s', e', e'', coins. Gives the
/// reply message, the key and the key's SHA3-256.
#[allow(clippy::too_many_arguments)]
pub fn reply(
    scheme: u64,
    opening: &[u8],
    a: &[u32],
    s1: &[i32],
    e1: &[i32],
    e2: &[i32],
    coins: &[u8],
    reply: &mut [u8],
    key: &mut [u8],
    digest: &mut [u8],
) -> Result<(usize, usize, usize), Refusal> {
    reply.fill(0);
    key.fill(0);
    digest.fill(0);

    let scheme = refusal::no_scheme(scheme)?;
    refusal::wrong_length(opening.len(), scheme.opening_bytes())?;
    refusal::wrong_length(a.len(), scheme.public_count())?;
    refusal::wrong_length(s1.len(), scheme.secret_count())?;
    refusal::wrong_length(e1.len(), scheme.noise_count())?;
    refusal::wrong_length(e2.len(), scheme.last_noise_count())?;
    refusal::wrong_length(coins.len(), scheme.coin_bytes())?;
    refusal::short_output(reply.len(), scheme.reply_bytes())?;
    refusal::short_output(key.len(), scheme.key_bytes)?;
    refusal::short_output(digest.len(), DIGEST)?;
    refusal::large_public(scheme, a)?;
    let packed = message::opening_packed(scheme, opening);
    let numbers = message::numbers(scheme, packed);
    refusal::large_in_message(scheme, &numbers)?;
    refusal::blank_part(packed)?;
    refusal::beyond_noise(scheme, s1)?;
    refusal::beyond_noise(scheme, e1)?;
    refusal::beyond_noise(scheme, e2)?;

    let (a, b) = (message::plain(scheme, a), message::plain(scheme, &numbers));
    let u = mix::u(scheme, &a, &signed(s1), &signed(e1));
    let v = mix::v(scheme, &b, &signed(s1), &signed(e2));
    let (hints, entries) = replier(scheme, &v, coins);
    let answer = message::reply(scheme, &u, &hints);
    refusal::blank_part(message::reply_packed(scheme, &answer))?;
    let key_answer = message::key(scheme, &entries);
    Ok((
        write(&answer, reply),
        write(&key_answer, key),
        write(&sha3_256(&key_answer), digest),
    ))
}
