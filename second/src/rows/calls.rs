//! The six calls on a lent state.

use super::lent::{lay, parse, state_count};
use super::{Carried, State};
use crate::calls::{signed, write};
use crate::hash::{sha3_256, DIGEST};
use crate::reconcile::replier;
use crate::refusal::{self, refusal, Refusal};
use crate::schemes::{Family, Scheme};
use crate::{message, mix};

/// Begin of Offer: scheme, s, e, seed. Refused, it zeroes the state.
pub fn offer_begin(
    scheme: u64,
    s: &[i32],
    e: &[i32],
    seed: &[u8],
    state: &mut [u32],
) -> Result<(), Refusal> {
    state.fill(0);

    let scheme = no_frodo(scheme)?;
    refusal::wrong_length(s.len(), scheme.secret_count())?;
    refusal::wrong_length(e.len(), scheme.noise_count())?;
    refusal::wrong_length(seed.len(), scheme.seed_bytes())?;
    refusal::wrong_length(state.len(), state_count(scheme))?;
    refusal::beyond_noise(scheme, s)?;
    refusal::beyond_noise(scheme, e)?;

    state.copy_from_slice(&lay(&State {
        scheme,
        carried: Carried::Seed(seed.to_vec()),
        come: 0,
        secret: words(s),
        sums: words(e),
        held: vec![0; 16 * scheme.n],
    }));
    Ok(())
}

/// Begin of Reply: scheme, opening message, s', e', e''. Refused, it zeroes the
/// state.
pub fn reply_begin(
    scheme: u64,
    opening: &[u8],
    s1: &[i32],
    e1: &[i32],
    e2: &[i32],
    state: &mut [u32],
) -> Result<(), Refusal> {
    state.fill(0);

    let scheme = no_frodo(scheme)?;
    refusal::wrong_length(opening.len(), scheme.opening_bytes())?;
    refusal::wrong_length(s1.len(), scheme.secret_count())?;
    refusal::wrong_length(e1.len(), scheme.noise_count())?;
    refusal::wrong_length(e2.len(), scheme.last_noise_count())?;
    refusal::wrong_length(state.len(), state_count(scheme))?;
    let packed = message::opening_packed(scheme, opening);
    refusal::blank_part(packed)?;
    refusal::beyond_noise(scheme, s1)?;
    refusal::beyond_noise(scheme, e1)?;
    refusal::beyond_noise(scheme, e2)?;

    let b = message::plain(scheme, &message::numbers(scheme, packed));
    let v = mix::v(scheme, &b, &signed(s1), &signed(e2));
    state.copy_from_slice(&lay(&State {
        scheme,
        carried: Carried::V(v.iter().map(|&v| u32::try_from(v).unwrap()).collect()),
        come: 0,
        secret: words(s1),
        sums: words(e1),
        held: vec![0; 16 * scheme.n],
    }));
    Ok(())
}

/// A part of Offer: numbers of the current row.
pub fn offer_part(part: &[u32], state: &mut [u32]) -> Result<(), Refusal> {
    let begun = begun_offer(state)?;
    take(begun, part, state)
}

/// A part of Reply: numbers of the current row.
pub fn reply_part(part: &[u32], state: &mut [u32]) -> Result<(), Refusal> {
    let begun = begun_reply(state)?;
    take(begun, part, state)
}

/// End of Offer. Gives the opening message, and zeroes the state.
pub fn offer_end(state: &mut [u32], opening: &mut [u8]) -> Result<usize, Refusal> {
    opening.fill(0);

    let begun = begun_offer(state)?;
    let scheme = begun.scheme;
    rows_missing(&begun)?;
    refusal::short_output(opening.len(), scheme.opening_bytes())?;
    let Carried::Seed(seed) = &begun.carried else {
        panic!("begun for Offer");
    };
    let answer = message::opening(scheme, &begun.reduced(), seed);
    refusal::blank_part(message::opening_packed(scheme, &answer))?;

    state.fill(0);
    Ok(write(&answer, opening))
}

/// End of Reply. Gives the reply message, the key and its SHA3-256, and zeroes the
/// state.
pub fn reply_end(
    state: &mut [u32],
    reply: &mut [u8],
    key: &mut [u8],
    digest: &mut [u8],
) -> Result<(usize, usize, usize), Refusal> {
    reply.fill(0);
    key.fill(0);
    digest.fill(0);

    let begun = begun_reply(state)?;
    let scheme = begun.scheme;
    rows_missing(&begun)?;
    refusal::short_output(reply.len(), scheme.reply_bytes())?;
    refusal::short_output(key.len(), scheme.key_bytes)?;
    refusal::short_output(digest.len(), DIGEST)?;
    let Carried::V(v) = &begun.carried else {
        panic!("begun for Reply");
    };
    let v: Vec<i128> = v.iter().map(|&v| v.into()).collect();
    let (hints, entries) = replier(scheme, &v, &[]);
    let answer = message::reply(scheme, &begun.reduced(), &hints);
    refusal::blank_part(message::reply_packed(scheme, &answer))?;

    state.fill(0);
    let key_answer = message::key(scheme, &entries);
    Ok((
        write(&answer, reply),
        write(&key_answer, key),
        write(&sha3_256(&key_answer), digest),
    ))
}

/// 1: here the scheme is not 2 to 5.
fn no_frodo(number: u64) -> Result<&'static Scheme, Refusal> {
    let scheme = refusal::no_scheme(number)?;
    match scheme.family {
        Family::Frodo => Ok(scheme),
        Family::Bcns | Family::NewHope => Err(refusal(1, 0)),
    }
}

/// 11: there is no begin of this call.
fn begun_offer(state: &[u32]) -> Result<State, Refusal> {
    let of_offer = |state: &State| matches!(state.carried, Carried::Seed(_));
    parse(state).filter(of_offer).ok_or(refusal(11, 0))
}

fn begun_reply(state: &[u32]) -> Result<State, Refusal> {
    let of_reply = |state: &State| matches!(state.carried, Carried::V(_));
    parse(state).filter(of_reply).ok_or(refusal(11, 0))
}

/// 11: an end before all n rows.
fn rows_missing(begun: &State) -> Result<(), Refusal> {
    if begun.all_rows() {
        Ok(())
    } else {
        Err(refusal(11, 0))
    }
}

/// 11 for a part that runs past the row or the last row, then 4, with the index in
/// the part.
fn take(mut begun: State, part: &[u32], state: &mut [u32]) -> Result<(), Refusal> {
    if part.len() > begun.left_in_row() {
        return Err(refusal(11, 0));
    }
    refusal::large_public(begun.scheme, part)?;
    for &number in part {
        begun.take(u16::try_from(number).expect("below q"));
    }
    state.copy_from_slice(&lay(&begun));
    Ok(())
}

/// Values modulo 2^16.
fn words(values: &[i32]) -> Vec<u16> {
    let word = |&value: &i32| value.rem_euclid(65536) as u16;
    values.iter().map(word).collect()
}
