//! The calls on slices, with what Reply and Finish wrote as the second program tells
//! it, for tests that are written once for both.

pub use wimmostry::raw::*;
use wimmostry::Refusal;

#[allow(clippy::too_many_arguments)]
pub fn reply(
    scheme: u32,
    opening: &[u8],
    a: &[u32],
    s1: &[i32],
    e1: &[i32],
    e2: &[i32],
    coins: &[u8],
    message: &mut [u8],
    key: &mut [u8],
    digest: &mut [u8],
) -> Result<(usize, usize, usize), Refusal> {
    wimmostry::raw::reply(scheme, opening, a, s1, e1, e2, coins, message, key, digest).map(replied)
}

pub fn replied(written: Replied) -> (usize, usize, usize) {
    (written.message, written.key, written.digest)
}

pub fn finish(
    scheme: u32,
    reply: &[u8],
    s: &[i32],
    key: &mut [u8],
    digest: &mut [u8],
) -> Result<(usize, usize, Slack), Refusal> {
    wimmostry::raw::finish(scheme, reply, s, key, digest).map(finished)
}

pub fn finished(written: Finished) -> (usize, usize, Slack) {
    (written.key, written.digest, written.slack)
}
