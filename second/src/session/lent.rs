//! A session behind a pointer: its stage, its scheme and 128 bytes of key; and
//! the calls on it.

use super::{step, Name, Session, Stage, IDLE, KEY};
use crate::calls;
use crate::reconcile::Slack;
use crate::refusal::{refusal, Refusal};
use crate::schemes::scheme;

pub const BYTES: usize = 2 + KEY;

/// The session that the bytes are; none where no call leaves them.
pub fn parse(lent: &[u8]) -> Option<Session> {
    let lent: &[u8; BYTES] = lent.try_into().ok()?;
    let [stage, number, key @ ..] = lent;
    let scheme = scheme(u64::from(*number))?;
    // How many bytes of key the stage has; those behind are zero.
    let (stage, of_key) = match stage {
        0 if *number == 0 => (Stage::Idle, 0),
        1 => (Stage::Offered(scheme), 0),
        2 => (Stage::Keyed(scheme), scheme.key_bytes),
        _ => return None,
    };
    if key[of_key..].iter().any(|&byte| byte != 0) {
        return None;
    }
    Some(Session { stage, key: *key })
}

/// The bytes of a session.
pub fn lay(session: &Session) -> [u8; BYTES] {
    let (stage, scheme) = match session.stage {
        Stage::Idle => (0, 0),
        Stage::Offered(scheme) => (1, scheme.number as u8),
        Stage::Keyed(scheme) => (2, scheme.number as u8),
    };
    let mut lent = [0; BYTES];
    (lent[0], lent[1]) = (stage, scheme);
    lent[2..].copy_from_slice(&session.key);
    lent
}

/// A step on lent bytes. Those that are in no stage give 10 and stay.
pub fn lent_step<T>(
    lent: &mut [u8],
    name: Name,
    scheme: u64,
    beneath: impl FnOnce() -> Result<(T, Vec<u8>), Refusal>,
) -> Result<T, Refusal> {
    let mut session = parse(lent).ok_or(refusal(10, 0))?;
    let answer = step(&mut session, name, scheme, beneath)?;
    lent.copy_from_slice(&lay(&session));
    Ok(answer)
}

/// Offer on a session.
pub fn offer(
    session: &mut [u8],
    scheme: u64,
    a: &[u32],
    s: &[i32],
    e: &[i32],
    seed: &[u8],
    opening: &mut [u8],
) -> Result<usize, Refusal> {
    opening.fill(0);

    lent_step(session, Name::Offer, scheme, || {
        let written = calls::offer(scheme, a, s, e, seed, opening)?;
        Ok((written, vec![]))
    })
}

/// Reply on a session.
#[allow(clippy::too_many_arguments)]
pub fn reply(
    session: &mut [u8],
    scheme: u64,
    opening: &[u8],
    a: &[u32],
    s1: &[i32],
    e1: &[i32],
    e2: &[i32],
    coins: &[u8],
    reply: &mut [u8],
    key: &mut [u8],
    digest: &mut [u8],
) -> Result<(usize, usize, usize), Refusal> {
    reply.fill(0);
    key.fill(0);
    digest.fill(0);

    lent_step(session, Name::Reply, scheme, || {
        let written = calls::reply(scheme, opening, a, s1, e1, e2, coins, reply, key, digest)?;
        Ok((written, key[..written.1].to_vec()))
    })
}

/// Finish on a session.
pub fn finish(
    session: &mut [u8],
    scheme: u64,
    reply: &[u8],
    s: &[i32],
    key: &mut [u8],
    digest: &mut [u8],
) -> Result<(usize, usize, Slack), Refusal> {
    key.fill(0);
    digest.fill(0);

    lent_step(session, Name::Finish, scheme, || {
        let written = calls::finish(scheme, reply, s, key, digest)?;
        Ok((written, key[..written.0].to_vec()))
    })
}

/// Open on a session, in Offer's row.
#[allow(clippy::too_many_arguments)]
pub fn open(
    session: &mut [u8],
    scheme: u64,
    rule: u32,
    a: &[u32],
    table: &[u64],
    random: &[u8],
    opening: &mut [u8],
    s: &mut [i32],
) -> Result<(usize, usize), Refusal> {
    opening.fill(0);
    s.fill(0);

    lent_step(session, Name::Offer, scheme, || {
        let written = calls::open(scheme, rule, a, table, random, opening, s)?;
        Ok((written, vec![]))
    })
}

/// Answer on a session, in Reply's row.
#[allow(clippy::too_many_arguments)]
pub fn answer(
    session: &mut [u8],
    scheme: u64,
    rule: u32,
    opening: &[u8],
    a: &[u32],
    table: &[u64],
    random: &[u8],
    message: &mut [u8],
    key: &mut [u8],
    digest: &mut [u8],
) -> Result<(usize, usize, usize), Refusal> {
    message.fill(0);
    key.fill(0);
    digest.fill(0);

    lent_step(session, Name::Reply, scheme, || {
        let written = calls::answer(
            scheme, rule, opening, a, table, random, message, key, digest,
        )?;
        Ok((written, key[..written.1].to_vec()))
    })
}

/// Close zeroes the bytes, whatever they hold and however many they are. Where
/// they are a session, so does the table.
pub fn close(session: &mut [u8]) {
    if let Some(mut whole) = parse(session) {
        let closed = step(&mut whole, Name::Close, 0, || Ok(((), vec![])));
        assert_eq!((closed, whole), (Ok(()), IDLE));
    }
    session.fill(0);
}
