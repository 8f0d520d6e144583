//! Sequences of calls to hold another program to, the same in every run.

use super::{Call, Inputs, Seen, BYTES};
use crate::hash::DIGEST;
use crate::schemes::{scheme, Scheme, SIX};
use crate::vectors::draw::{drawn, Entries};
use std::sync::Arc;

/// A call in a sequence, all that its caller sees, and the session after it.
#[derive(Clone, Debug)]
pub struct Step<'a> {
    pub call: &'a Call,
    pub seen: Seen,
    pub after: [u8; BYTES],
}

/// Every sequence of 1 to `longest` of these calls, from an idle session on. Each
/// is given once, so that of each only the last step is new.
pub fn all_sequences<'a>(calls: &'a [Call], longest: usize, each: &mut impl FnMut(&[Step<'a>])) {
    go_on(calls, longest, &mut vec![], each);
}

fn go_on<'a>(
    calls: &'a [Call],
    longest: usize,
    steps: &mut Vec<Step<'a>>,
    each: &mut impl FnMut(&[Step<'a>]),
) {
    if steps.len() == longest {
        return;
    }
    for call in calls {
        let mut after = steps.last().map_or([0; BYTES], |step| step.after);
        let seen = call.run(&mut after);
        steps.push(Step { call, seen, after });
        each(steps);
        go_on(calls, longest, steps, each);
        steps.pop();
    }
}

/// Thirteen calls: of a first scheme each call, good and refused; of another each
/// call, good; of no scheme each call; and Close.
pub fn alphabet(first: u64, other: u64) -> Vec<Call> {
    let mut calls = vec![];
    let known = Drawn::of(first);
    calls.extend(known.good());
    calls.extend(known.refused());
    calls.extend(Drawn::of(other).good());
    calls.extend(known.of_no_scheme());
    calls.push(Call::new("close", 0, Inputs::Close, &[]));
    calls
}

/// Buffers that no call leaves, and buffers of another length.
pub fn in_no_stage() -> Vec<Vec<u8>> {
    let with = |entries: &[(usize, u8)]| {
        let mut lent = vec![0; BYTES];
        for &(at, byte) in entries {
            lent[at] = byte;
        }
        lent
    };
    let (key, last) = (2, BYTES - 1);
    let mut buffers: Vec<Vec<u8>> = [0, 1, 2, BYTES - 1, BYTES + 1, 2 * BYTES]
        .iter()
        .map(|&length| vec![0; length])
        .collect();
    // Idle with a scheme or a key.
    buffers.extend([with(&[(1, 1)]), with(&[(1, 6)]), with(&[(key, 1)])]);
    buffers.extend([with(&[(last, 128)]), with(&[(1, 2), (key, 1)])]);
    // Other stages, also where all else would fit.
    for stage in [3, 4, 129, 255] {
        buffers.push(with(&[(0, stage)]));
        buffers.push(with(&[(0, stage), (1, 2), (key, 1)]));
    }
    // Other schemes.
    for number in [6, 7, 128, 255] {
        buffers.push(with(&[(0, 1), (1, number)]));
        buffers.push(with(&[(0, 2), (1, number), (key, 1)]));
    }
    for scheme in &SIX {
        let number = scheme.number as u8;
        // Offered with a key.
        buffers.push(with(&[(0, 1), (1, number), (key, 1)]));
        buffers.push(with(&[(0, 1), (1, number), (last, 255)]));
        // Keyed, with a byte behind the key.
        let behind = key + scheme.key_bytes;
        if behind <= last {
            buffers.push(with(&[(0, 2), (1, number), (key, 9), (behind, 1)]));
            buffers.push(with(&[(0, 2), (1, number), (last, 1)]));
        }
        // A session of the right bytes with one more or one fewer.
        let mut keyed = with(&[(0, 2), (1, number), (key, 1)]);
        keyed.push(0);
        buffers.push(keyed.clone());
        keyed.truncate(BYTES - 1);
        buffers.push(keyed);
    }
    buffers
}

/// One box of a scheme: what it offers and finishes with one peer, and what it
/// replies to another, so that the two keys are not the same.
struct Drawn {
    scheme: &'static Scheme,
    offer: Inputs,
    reply: Inputs,
    finish: Inputs,
}

impl Drawn {
    fn of(number: u64) -> Drawn {
        let scheme = scheme(number).expect("a known scheme");
        let first = 1000 * (number + 1);
        let q = scheme.q as i64;
        let list = |own, entries, count| drawn(first + own, entries, count);
        let small = |own, count| -> Vec<i32> {
            let list = list(own, Entries::ValuesOfAtMost(1), count);
            list.iter().map(|&value| value as i32).collect()
        };
        let bytes = |own, count| -> Vec<u8> {
            let list = list(own, Entries::Bytes, count);
            list.iter().map(|&byte| byte as u8).collect()
        };
        let a = list(1, Entries::PublicNumbers { q }, scheme.public_count());
        let a: Arc<Vec<u32>> = Arc::new(a.iter().map(|&number| number as u32).collect());
        let offered = |own| Inputs::Offer {
            a: a.clone(),
            s: small(own, scheme.secret_count()),
            e: small(own + 1, scheme.noise_count()),
            seed: bytes(own + 2, scheme.seed_bytes()),
        };
        let replied = |own, opening| Inputs::Reply {
            opening,
            a: a.clone(),
            s1: small(own, scheme.secret_count()),
            e1: small(own + 1, scheme.noise_count()),
            e2: small(own + 2, scheme.last_noise_count()),
            coins: bytes(own + 3, scheme.coin_bytes()),
        };
        let message = |inputs: &Inputs| {
            let call = Call::new("", number, inputs.clone(), &rooms(scheme, inputs));
            call.beneath().outputs[0].clone()
        };
        let offer = offered(10);
        let reply = replied(20, message(&offered(30)));
        let answer = message(&replied(40, message(&offer)));
        let finish = Inputs::Finish {
            reply: answer,
            s: small(10, scheme.secret_count()),
        };
        Drawn {
            scheme,
            offer,
            reply,
            finish,
        }
    }

    fn call(&self, what: &str, number: u64, inputs: &Inputs) -> Call {
        let rooms = rooms(self.scheme, inputs);
        Call::new(what, number, inputs.clone(), &rooms)
    }

    fn good(&self) -> [Call; 3] {
        let number = self.scheme.number;
        [
            self.call("offer", number, &self.offer),
            self.call("reply", number, &self.reply),
            self.call("finish", number, &self.finish),
        ]
    }

    /// Offer and Finish with a secret beyond the largest noise, and Reply to a
    /// blank opening.
    fn refused(&self) -> [Call; 3] {
        let beyond = self.scheme.largest_noise as i32 + 1;
        let [mut offer, mut reply, mut finish] = self.good();
        if let Inputs::Offer { s, .. } | Inputs::Finish { s, .. } = &mut offer.inputs {
            s[5] = beyond;
        }
        if let Inputs::Reply { opening, .. } = &mut reply.inputs {
            opening.fill(0);
        }
        if let Inputs::Offer { s, .. } | Inputs::Finish { s, .. } = &mut finish.inputs {
            s[7] = -beyond;
        }
        for call in [&mut offer, &mut reply, &mut finish] {
            call.what = format!("refused {}", call.what);
        }
        [offer, reply, finish]
    }

    fn of_no_scheme(&self) -> [Call; 3] {
        [
            self.call("offer of no scheme", 6, &self.offer),
            self.call("reply of no scheme", 4294967295, &self.reply),
            self.call("finish of no scheme", 6, &self.finish),
        ]
    }
}

/// As many bytes as the answers, or a few more.
fn rooms(scheme: &Scheme, inputs: &Inputs) -> Vec<usize> {
    match inputs {
        Inputs::Offer { .. } => vec![scheme.opening_bytes()],
        Inputs::Reply { .. } => vec![scheme.reply_bytes(), scheme.key_bytes + 1, DIGEST],
        Inputs::Finish { .. } => vec![scheme.key_bytes, DIGEST + 3],
        Inputs::Close => vec![],
    }
}
