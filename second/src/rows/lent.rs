//! The running state as lent numbers of 32 bits:
//!
//! | from | numbers |
//! |---|---|
//! | 0 | the call: 3 Offer, 4 Reply (in earlier layouts 1 and 2) |
//! | 1 | the scheme, 2 to 5 |
//! | 2 | how many numbers of A have come, up to n n |
//! | 3 | Offer: the seed's 16 bytes, then 48 zeros; Reply: the 64 values of V, below q |
//! | 67 | the secret, 8n words: Offer's S column after column, Reply's S' row after row |
//! | 67 + 4n | the running sums, 8n words: B or B' row after row |
//! | 67 + 8n | sixteen rows of A, 16n words: those held back; others behind them do not count |
//!
//! A word is of 16 bits; two stand in one number, the first in its low half. From 67
//! on any number is in range.

use super::{Carried, State};
use crate::schemes::{scheme, Family, Scheme};

const OFFER: u32 = 3;
const REPLY: u32 = 4;
const CARRIED: usize = 3;
const SECRET: usize = CARRIED + 64;

/// The fixed length of a scheme's state.
pub fn state_count(scheme: &Scheme) -> usize {
    SECRET + 16 * scheme.n
}

/// The state that the numbers are; none where one is out of range or the length
/// is not the fixed one.
pub fn parse(lent: &[u32]) -> Option<State> {
    let &[call, number, come, ..] = lent else {
        return None;
    };
    let scheme = scheme(number.into()).filter(|scheme| scheme.family == Family::Frodo)?;
    if lent.len() != state_count(scheme) {
        return None;
    }
    let come = usize::try_from(come).ok()?;
    if come > scheme.n * scheme.n {
        return None;
    }
    let (secret, behind) = lent[SECRET..].split_at(4 * scheme.n);
    let (sums, held) = behind.split_at(4 * scheme.n);
    let [secret, sums, held] = [secret, sums, held].map(words);
    let carried = &lent[CARRIED..SECRET];
    let (carried, secret) = match call {
        OFFER => (seed(scheme, carried)?, turned(&secret, 8)),
        REPLY => (values(scheme, carried)?, secret),
        _ => return None,
    };
    Some(State {
        scheme,
        carried,
        come,
        secret,
        sums,
        held,
    })
}

/// 16 bytes and zeros.
fn seed(scheme: &Scheme, carried: &[u32]) -> Option<Carried> {
    let (seed, zeros) = carried.split_at(scheme.seed_bytes());
    if zeros.iter().any(|&zero| zero != 0) {
        return None;
    }
    let bytes = seed.iter().map(|&byte| u8::try_from(byte).ok());
    Some(Carried::Seed(bytes.collect::<Option<Vec<u8>>>()?))
}

/// 64 values below q.
fn values(scheme: &Scheme, carried: &[u32]) -> Option<Carried> {
    if carried.iter().any(|&value| i128::from(value) >= scheme.q) {
        return None;
    }
    Some(Carried::V(carried.to_vec()))
}

/// The numbers of a state.
pub fn lay(state: &State) -> Vec<u32> {
    let (call, carried, secret) = match &state.carried {
        Carried::Seed(seed) => {
            let mut carried: Vec<u32> = seed.iter().map(|&byte| byte.into()).collect();
            carried.resize(64, 0);
            (OFFER, carried, turned(&state.secret, state.scheme.n))
        }
        Carried::V(v) => (REPLY, v.clone(), state.secret.clone()),
    };
    let head = [call, state.scheme.number as u32, state.come as u32];
    let [secret, sums, held] = [&secret, &state.sums, &state.held].map(|words| pairs(words));
    [&head[..], &carried, &secret, &sums, &held].concat()
}

/// The two words of each number.
fn words(numbers: &[u32]) -> Vec<u16> {
    let two = |&number: &u32| [(number % 65536) as u16, (number / 65536) as u16];
    numbers.iter().flat_map(two).collect()
}

/// Words, two in each number.
fn pairs(words: &[u16]) -> Vec<u32> {
    let one = |two: &[u16]| u32::from(two[0]) + 65536 * u32::from(two[1]);
    words.chunks_exact(2).map(one).collect()
}

/// A matrix of so many rows that lie one after the other, its columns laid so.
fn turned(matrix: &[u16], rows: usize) -> Vec<u16> {
    let columns = matrix.len() / rows;
    let mut turned = vec![];
    for column in 0..columns {
        for row in 0..rows {
            turned.push(matrix[row * columns + column]);
        }
    }
    turned
}
