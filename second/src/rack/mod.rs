//! 02, request k: eight studios, one rack, as lent bytes: eight records at fixed
//! slots, each its studio number and then a session.

mod interleavings;

pub use interleavings::{interleavings, odd_racks, run, Step};

use crate::reconcile::Slack;
use crate::refusal::{refusal, Refusal};
use crate::session;

pub const STUDIOS: usize = 8;

/// Bytes of a record: the studio number and a session.
pub const RECORD: usize = 1 + session::BYTES;

pub const BYTES: usize = STUDIOS * RECORD;

/// A studio's record: 16 for a studio over 7, before 10 for a rack of another
/// length.
fn record(rack: &mut [u8], studio: u64) -> Result<&mut [u8], Refusal> {
    if studio > 7 {
        return Err(refusal(16, 0));
    }
    if rack.len() != BYTES {
        return Err(refusal(10, 0));
    }
    let slot = studio as usize;
    Ok(&mut rack[slot * RECORD..][..RECORD])
}

/// A studio's session: 10 also where its slot has another number.
pub(crate) fn slot(rack: &mut [u8], studio: u64) -> Result<&mut [u8], Refusal> {
    let [number, session @ ..] = record(rack, studio)? else {
        panic!("a record has a number");
    };
    if u64::from(*number) != studio {
        return Err(refusal(10, 0));
    }
    Ok(session)
}

/// Offer in a rack.
#[allow(clippy::too_many_arguments)]
pub fn offer(
    rack: &mut [u8],
    studio: u64,
    scheme: u64,
    a: &[u32],
    s: &[i32],
    e: &[i32],
    seed: &[u8],
    opening: &mut [u8],
) -> Result<usize, Refusal> {
    opening.fill(0);

    session::offer(slot(rack, studio)?, scheme, a, s, e, seed, opening)
}

/// Reply in a rack.
#[allow(clippy::too_many_arguments)]
pub fn reply(
    rack: &mut [u8],
    studio: u64,
    scheme: u64,
    opening: &[u8],
    a: &[u32],
    s1: &[i32],
    e1: &[i32],
    e2: &[i32],
    coins: &[u8],
    reply: &mut [u8],
    key: &mut [u8],
    digest: &mut [u8],
) -> Result<(usize, usize, usize), Refusal> {
    reply.fill(0);
    key.fill(0);
    digest.fill(0);

    let session = slot(rack, studio)?;
    session::reply(
        session, scheme, opening, a, s1, e1, e2, coins, reply, key, digest,
    )
}

/// Finish in a rack.
#[allow(clippy::too_many_arguments)]
pub fn finish(
    rack: &mut [u8],
    studio: u64,
    scheme: u64,
    reply: &[u8],
    s: &[i32],
    key: &mut [u8],
    digest: &mut [u8],
) -> Result<(usize, usize, Slack), Refusal> {
    key.fill(0);
    digest.fill(0);

    session::finish(slot(rack, studio)?, scheme, reply, s, key, digest)
}

/// Close in a rack leaves the slot's number and zeros, whatever the slot held.
pub fn close(rack: &mut [u8], studio: u64) -> Result<(), Refusal> {
    let record = record(rack, studio)?;
    record.fill(0);
    record[0] = studio as u8;
    Ok(())
}

/// Clear: eight idle records with their numbers; 10 for a rack of another length.
pub fn clear(rack: &mut [u8]) -> Result<(), Refusal> {
    for studio in 0..STUDIOS as u64 {
        close(rack, studio)?;
    }
    Ok(())
}
