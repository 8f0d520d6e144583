//! One of the six calls with all that it is lent but the state, and all that its
//! caller sees.

use super::calls::{offer_begin, offer_end, offer_part, reply_begin, reply_end, reply_part};
use crate::refusal::Refusal;

/// The inputs of a call, or the room of each of its outputs.
#[derive(Clone, Debug)]
pub enum Call {
    OfferBegin {
        scheme: u64,
        s: Vec<i32>,
        e: Vec<i32>,
        seed: Vec<u8>,
    },
    ReplyBegin {
        scheme: u64,
        opening: Vec<u8>,
        s1: Vec<i32>,
        e1: Vec<i32>,
        e2: Vec<i32>,
    },
    OfferPart(Vec<u32>),
    ReplyPart(Vec<u32>),
    OfferEnd {
        message: usize,
    },
    ReplyEnd {
        message: usize,
        key: usize,
        digest: usize,
    },
}

/// All that a caller sees beside the state: the outputs of Offer's end are the
/// message, of Reply's message, key and digest.
#[derive(Clone, Debug, PartialEq, Eq)]
pub struct Seen {
    pub refusal: Option<Refusal>,
    pub written: Vec<usize>,
    pub outputs: Vec<Vec<u8>>,
}

impl Call {
    /// The call on a lent state.
    pub fn run(&self, state: &mut [u32]) -> Seen {
        let output = |&room: &usize| vec![1u8; room];
        match self {
            Call::OfferBegin { scheme, s, e, seed } => {
                let told = offer_begin(*scheme, s, e, seed, state);
                seen(told.map(|()| vec![]), vec![])
            }
            Call::ReplyBegin {
                scheme,
                opening,
                s1,
                e1,
                e2,
            } => {
                let told = reply_begin(*scheme, opening, s1, e1, e2, state);
                seen(told.map(|()| vec![]), vec![])
            }
            Call::OfferPart(part) => seen(offer_part(part, state).map(|()| vec![]), vec![]),
            Call::ReplyPart(part) => seen(reply_part(part, state).map(|()| vec![]), vec![]),
            Call::OfferEnd { message } => {
                let mut message = output(message);
                let told = offer_end(state, &mut message);
                seen(told.map(|m| vec![m]), vec![message])
            }
            Call::ReplyEnd {
                message,
                key,
                digest,
            } => {
                let [mut m, mut k, mut d] = [message, key, digest].map(output);
                let told = reply_end(state, &mut m, &mut k, &mut d);
                seen(told.map(|(m, k, d)| vec![m, k, d]), vec![m, k, d])
            }
        }
    }
}

fn seen(told: Result<Vec<usize>, Refusal>, outputs: Vec<Vec<u8>>) -> Seen {
    let (refusal, written) = match told {
        Ok(written) => (None, written),
        Err(refusal) => (Some(refusal), vec![0; outputs.len()]),
    };
    Seen {
        refusal,
        written,
        outputs,
    }
}
