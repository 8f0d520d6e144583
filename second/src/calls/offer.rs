use super::{signed, write};
use crate::refusal::{self, Refusal};
use crate::{message, mix};

/// Offer: scheme, public a, secret s, noise e, seed. Gives the opening message.
pub fn offer(
    scheme: u64,
    a: &[u32],
    s: &[i32],
    e: &[i32],
    seed: &[u8],
    opening: &mut [u8],
) -> Result<usize, Refusal> {
    opening.fill(0);

    let scheme = refusal::no_scheme(scheme)?;
    refusal::wrong_length(a.len(), scheme.public_count())?;
    refusal::wrong_length(s.len(), scheme.secret_count())?;
    refusal::wrong_length(e.len(), scheme.noise_count())?;
    refusal::wrong_length(seed.len(), scheme.seed_bytes())?;
    refusal::short_output(opening.len(), scheme.opening_bytes())?;
    refusal::large_public(scheme, a)?;
    refusal::beyond_noise(scheme, s)?;
    refusal::beyond_noise(scheme, e)?;

    let a = message::plain(scheme, a);
    let b = mix::b(scheme, &a, &signed(s), &signed(e));
    let answer = message::opening(scheme, &b, seed);
    refusal::blank_part(message::opening_packed(scheme, &answer))?;
    Ok(write(&answer, opening))
}
