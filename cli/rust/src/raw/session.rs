//! The calls on a session, as they stand in the header: the session's bytes come
//! first, and then all is as in the call without one.
//!
//! A call that the session's stage does not allow is refused with 10, before
//! anything else is tested; so is a buffer that is in no stage. A refused call
//! changes no byte of the session.

use super::{count, ffi, scrub_depth, stack, Finished, Opened, Replied};
use crate::Refusal;

/// [`offer`](super::offer) when idle, which leads to offered with that scheme.
///
/// # Errors
///
/// Refuses with 10, and then as [`offer`](super::offer) does.
pub fn offer(
    session: &mut [u8],
    scheme: u32,
    a: &[u32],
    s: &[i32],
    e: &[i32],
    seed: &[u8],
    message: &mut [u8],
) -> Result<usize, Refusal> {
    let [written] = call!(wim_session_offer(session; scheme; a, s, e, seed; message) written)?;
    Ok(count(written))
}

/// [`reply`](super::reply) when idle, which leads to keyed with that scheme and
/// its key.
///
/// # Errors
///
/// Refuses with 10, and then as [`reply`](super::reply) does.
#[allow(clippy::too_many_arguments)]
pub fn reply(
    session: &mut [u8],
    scheme: u32,
    opening: &[u8],
    a: &[u32],
    s1: &[i32],
    e1: &[i32],
    e2: &[i32],
    coins: &[u8],
    message: &mut [u8],
    key: &mut [u8],
    digest: &mut [u8],
) -> Result<Replied, Refusal> {
    let written = call!(
        wim_session_reply(session; scheme; opening, a, s1, e1, e2, coins; message, key, digest)
            message_written, key_written, digest_written)?;
    Ok(Replied::of(written))
}

/// [`finish`](super::finish) when offered, with that scheme, which leads to keyed
/// with that scheme and its key.
///
/// # Errors
///
/// Refuses with 10, and then as [`finish`](super::finish) does.
pub fn finish(
    session: &mut [u8],
    scheme: u32,
    reply: &[u8],
    s: &[i32],
    key: &mut [u8],
    digest: &mut [u8],
) -> Result<Finished, Refusal> {
    let written = call!(wim_session_finish(session; scheme; reply, s; key, digest)
        key_written, digest_written, slack, slack_index)?;
    Ok(Finished::of(written))
}

/// [`open`](super::open) when idle, which leads to offered with that scheme.
///
/// # Errors
///
/// Refuses with 10, and then as [`open`](super::open) does.
#[allow(clippy::too_many_arguments)]
pub fn open(
    session: &mut [u8],
    scheme: u32,
    rule: u32,
    a: &[u32],
    table: &[u64],
    random: &[u8],
    opening: &mut [u8],
    s: &mut [i32],
) -> Result<Opened, Refusal> {
    let written = call!(wim_session_open(session; scheme, rule; a, table, random; opening, s)
        opening_written, s_written)?;
    Ok(Opened::of(written))
}

/// [`answer`](super::answer) when idle, which leads to keyed with that scheme and
/// its key.
///
/// # Errors
///
/// Refuses with 10, and then as [`answer`](super::answer) does.
#[allow(clippy::too_many_arguments)]
pub fn answer(
    session: &mut [u8],
    scheme: u32,
    rule: u32,
    opening: &[u8],
    a: &[u32],
    table: &[u64],
    random: &[u8],
    message: &mut [u8],
    key: &mut [u8],
    digest: &mut [u8],
) -> Result<Replied, Refusal> {
    let written = call!(
        wim_session_answer(
            session; scheme, rule; opening, a, table, random; message, key, digest)
            message_written, key_written, digest_written)?;
    Ok(Replied::of(written))
}

/// Zeroes the session, whatever it holds and however long it is: it is idle.
pub fn close(session: &mut [u8]) {
    // SAFETY: pointer and length are those of one slice, borrowed mutably.
    let number = unsafe { ffi::wim_session_close(session.as_mut_ptr(), session.len()) };
    scrub_depth(stack::wim_session_close);
    debug_assert_eq!(number, 0, "close has no refusal");
}
