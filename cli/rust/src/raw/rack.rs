//! The calls on a rack, as they stand in the header: the rack's bytes and the
//! studio come first, and then all is as in the call on a session.
//!
//! A studio over 7 is refused with 16, before anything else is tested; a rack of
//! another length, and another number in the studio's slot, with 10. A refused call
//! changes no byte of the rack, and no call one of another slot.

use super::{count, Finished, Replied};
use crate::Refusal;

/// [`session::offer`](super::session::offer) on the session of a studio.
///
/// # Errors
///
/// Refuses with 16, 10, and then as [`offer`](super::offer) does.
#[allow(clippy::too_many_arguments)]
pub fn offer(
    rack: &mut [u8],
    studio: u32,
    scheme: u32,
    a: &[u32],
    s: &[i32],
    e: &[i32],
    seed: &[u8],
    message: &mut [u8],
) -> Result<usize, Refusal> {
    let [written] = call!(wim_rack_offer(rack; studio, scheme; a, s, e, seed; message) written)?;
    Ok(count(written))
}

/// [`session::reply`](super::session::reply) on the session of a studio.
///
/// # Errors
///
/// Refuses with 16, 10, and then as [`reply`](super::reply) does.
#[allow(clippy::too_many_arguments)]
pub fn reply(
    rack: &mut [u8],
    studio: u32,
    scheme: u32,
    opening: &[u8],
    a: &[u32],
    s1: &[i32],
    e1: &[i32],
    e2: &[i32],
    coins: &[u8],
    message: &mut [u8],
    key: &mut [u8],
    digest: &mut [u8],
) -> Result<Replied, Refusal> {
    let written = call!(
        wim_rack_reply(rack; studio, scheme; opening, a, s1, e1, e2, coins; message, key, digest)
            message_written, key_written, digest_written)?;
    Ok(Replied::of(written))
}

/// [`session::finish`](super::session::finish) on the session of a studio.
///
/// # Errors
///
/// Refuses with 16, 10, and then as [`finish`](super::finish) does.
pub fn finish(
    rack: &mut [u8],
    studio: u32,
    scheme: u32,
    reply: &[u8],
    s: &[i32],
    key: &mut [u8],
    digest: &mut [u8],
) -> Result<Finished, Refusal> {
    let written = call!(wim_rack_finish(rack; studio, scheme; reply, s; key, digest)
        key_written, digest_written, slack, slack_index)?;
    Ok(Finished::of(written))
}

/// Leaves the studio's number in its slot and zeros behind it, whatever it held.
///
/// # Errors
///
/// Refuses with 16, and with 10 where the rack has another length.
pub fn close(rack: &mut [u8], studio: u32) -> Result<(), Refusal> {
    call!(wim_rack_close(rack; studio;;)).map(|[]| ())
}

/// Eight idle records with their numbers, whatever the rack held.
///
/// # Errors
///
/// Refuses with 10 where the rack has another length.
pub fn clear(rack: &mut [u8]) -> Result<(), Refusal> {
    call!(wim_rack_clear(rack;;;)).map(|[]| ())
}
