use super::{signed, write};
use crate::hash::{sha3_256, DIGEST};
use crate::reconcile::{initiator, slack, Slack};
use crate::refusal::{self, Refusal};
use crate::{message, mix};

/// Finish: scheme, reply message, s. Gives the key, the key's SHA3-256 and the
/// largest slack.
pub fn finish(
    scheme: u64,
    reply: &[u8],
    s: &[i32],
    key: &mut [u8],
    digest: &mut [u8],
) -> Result<(usize, usize, Slack), Refusal> {
    key.fill(0);
    digest.fill(0);

    let scheme = refusal::no_scheme(scheme)?;
    refusal::wrong_length(reply.len(), scheme.reply_bytes())?;
    refusal::wrong_length(s.len(), scheme.secret_count())?;
    refusal::short_output(key.len(), scheme.key_bytes)?;
    refusal::short_output(digest.len(), DIGEST)?;
    let packed = message::reply_packed(scheme, reply);
    let numbers = message::numbers(scheme, packed);
    refusal::large_in_message(scheme, &numbers)?;
    refusal::blank_part(packed)?;
    refusal::beyond_noise(scheme, s)?;

    let u = message::plain(scheme, &numbers);
    let w = mix::w(scheme, &u, &signed(s));
    let hints = message::reply_hints(scheme, reply);
    let answer = message::key(scheme, &initiator(scheme, &w, &hints));
    Ok((
        write(&answer, key),
        write(&sha3_256(&answer), digest),
        slack(scheme, &w, &hints),
    ))
}
