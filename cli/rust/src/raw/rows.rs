//! Frodo by rows: Offer and Reply in three calls each, which are lent A in parts
//! and a running state between them, [`state`](crate::Sizes::state) numbers.
//!
//! Begin starts afresh, whatever the state held; refused, it zeroes the state. A
//! part is some numbers of the current row, and any cut of a row will do; a
//! refused part or end leaves the state as it was and may be tried again. The state
//! holds rows back until sixteen have come: the part that ends them takes the time
//! of all sixteen, the others that of a copy. A good end zeroes it. Until then the
//! state holds the secret: it is the caller's to wipe where the exchange is given
//! up. [`rows`](crate::rows) sees to that.
//!
//! Begin and end scrub the stack. A part does not, since there are many of them and
//! a scrub takes longer than a row: what parts leave there goes with the end, which
//! scrubs deeper than itself for them, or by [`scrub`] where there is none.

use super::{count, scrub, Replied};
use crate::Refusal;

/// Offer, begin: scheme, secret s, noise e, seed, into the state.
///
/// # Errors
///
/// Refuses with 1 (not 2 to 5), 2 and 6; of 2, the state's length is tested last.
pub fn offer_begin(
    scheme: u32,
    s: &[i32],
    e: &[i32],
    seed: &[u8],
    state: &mut [u32],
) -> Result<(), Refusal> {
    call!(wim_rows_offer_begin(; scheme; s, e, seed; state)).map(|[]| ())
}

/// Offer, a part: the next numbers of the current row of A.
///
/// # Errors
///
/// Refuses with 11 and 4, whose place is the index in the part.
pub fn offer_part(part: &[u32], state: &mut [u32]) -> Result<(), Refusal> {
    ask!(wim_rows_offer_part(; ; part; state))
        .answer()
        .map(|[]| ())
}

/// Offer, end. Gives the opening message and how many bytes of `message` it takes.
///
/// # Errors
///
/// Refuses with 11, 3 and 17.
pub fn offer_end(state: &mut [u32], message: &mut [u8]) -> Result<usize, Refusal> {
    let told = ask!(wim_rows_offer_end(state; ; ; message) written);
    scrub();
    let [written] = told.answer()?;
    Ok(count(written))
}

/// Reply, begin: scheme, opening message, s', e', e'', into the state. Frodo has
/// no coins.
///
/// # Errors
///
/// Refuses with 1 (not 2 to 5), 2, 17 (the opening) and 6, in this order; of 2,
/// the state's length is tested last.
pub fn reply_begin(
    scheme: u32,
    opening: &[u8],
    s1: &[i32],
    e1: &[i32],
    e2: &[i32],
    state: &mut [u32],
) -> Result<(), Refusal> {
    call!(wim_rows_reply_begin(; scheme; opening, s1, e1, e2; state)).map(|[]| ())
}

/// Reply, a part: the next numbers of the current row of A.
///
/// # Errors
///
/// Refuses with 11 and 4, whose place is the index in the part.
pub fn reply_part(part: &[u32], state: &mut [u32]) -> Result<(), Refusal> {
    ask!(wim_rows_reply_part(; ; part; state))
        .answer()
        .map(|[]| ())
}

/// Reply, end. Gives the reply message, the replier's key and the key's SHA3-256,
/// and how many bytes of `message`, of `key` and of `digest` they take.
///
/// # Errors
///
/// Refuses with 11, 3 and 17 (the reply), in this order; of 3, the message's room
/// is tested first and the digest's last.
pub fn reply_end(
    state: &mut [u32],
    message: &mut [u8],
    key: &mut [u8],
    digest: &mut [u8],
) -> Result<Replied, Refusal> {
    let told = ask!(wim_rows_reply_end(state; ; ; message, key, digest)
        message_written, key_written, digest_written);
    scrub();
    Ok(Replied::of(told.answer()?))
}
