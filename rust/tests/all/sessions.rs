//! The calls on a session, held to the second program: every sequence of up to
//! four calls, good, refused and with another scheme, and buffers that no call
//! leaves. After each call all is compared: the answer, every output from end to
//! end, the session's bytes, the inputs and the guards around every buffer.

use crate::lent::Lent;
use second::refusal::refusal;
use second::schemes::SIX;
use second::session::{all_sequences, alphabet, in_no_stage, parse, Call, Inputs, Seen, BYTES};
use std::fmt::Debug;
use wimmostry::raw::{session, Slack};
use wimmostry::{Refusal, Stage};

/// A list between guards, and what it was.
type Listed<'a, T> = (Lent<T>, &'a [T]);

/// A call with its inputs between guards, by their types and in their order.
pub struct Ready<'a> {
    pub call: &'a Call,
    numbers: Vec<Listed<'a, u32>>,
    values: Vec<Listed<'a, i32>>,
    bytes: Vec<Listed<'a, u8>>,
}

/// The inputs of a call as it is lent them.
pub struct Given<'a> {
    pub numbers: Vec<&'a [u32]>,
    pub values: Vec<&'a [i32]>,
    pub bytes: Vec<&'a [u8]>,
}

impl Given<'_> {
    fn of(inputs: &Inputs) -> Given<'_> {
        let mut given = Given {
            numbers: vec![],
            values: vec![],
            bytes: vec![],
        };
        match inputs {
            Inputs::Offer { a, s, e, seed } => {
                given.numbers = vec![a];
                given.values = vec![s, e];
                given.bytes = vec![seed];
            }
            Inputs::Reply {
                opening,
                a,
                s1,
                e1,
                e2,
                coins,
            } => {
                given.numbers = vec![a];
                given.values = vec![s1, e1, e2];
                given.bytes = vec![opening, coins];
            }
            Inputs::Finish { reply, s } => {
                given.values = vec![s];
                given.bytes = vec![reply];
            }
            Inputs::Close => {}
        }
        given
    }
}

/// The written counts and the slack, or the refusal.
pub type Told = Result<(Vec<usize>, Slack), Refusal>;

/// A call on lent bytes: what it is given, and its outputs.
pub type Make = dyn Fn(&Call, &mut [u8], &Given, &mut [&mut [u8]]) -> Told;

fn listed<T: Copy + Debug + PartialEq>(entries: &[T], guard: T) -> Listed<'_, T> {
    (Lent::new(entries, guard), entries)
}

impl<'a> Ready<'a> {
    pub fn new(call: &'a Call) -> Ready<'a> {
        let given = Given::of(&call.inputs);
        Ready {
            call,
            numbers: given.numbers.into_iter().map(|x| listed(x, 7)).collect(),
            values: given.values.into_iter().map(|x| listed(x, 7)).collect(),
            bytes: given.bytes.into_iter().map(|x| listed(x, 7)).collect(),
        }
    }

    pub fn all(calls: &'a [Call]) -> Vec<Ready<'a>> {
        calls.iter().map(Ready::new).collect()
    }

    pub fn closes(&self) -> bool {
        matches!(self.call.inputs, Inputs::Close)
    }

    /// Makes the call on lent bytes, and holds it to what the second program saw,
    /// and the bytes to what it left.
    pub fn held(&self, before: &[u8], seen: &Seen, after: &[u8], make: &Make) {
        let given = Given {
            numbers: self.numbers.iter().map(|(x, _)| x.entries()).collect(),
            values: self.values.iter().map(|(x, _)| x.entries()).collect(),
            bytes: self.bytes.iter().map(|(x, _)| x.entries()).collect(),
        };
        let mut kept = Lent::new(before, 9);
        let fresh = |&room: &usize| Lent::new(&vec![0xA5; room], 9);
        let mut outputs: Vec<Lent<u8>> = self.call.rooms.iter().map(fresh).collect();
        let mut out: Vec<&mut [u8]> = outputs.iter_mut().map(Lent::entries_mut).collect();
        let told = make(self.call, kept.entries_mut(), &given, &mut out);
        let told = told.map_err(|refused| (refused.number(), refused.place()));
        let slack = Slack {
            largest: seen.slack.largest,
            index: seen.slack.index,
        };
        let expected = match seen.refusal {
            Some(refused) => Err((refused.number, refused.place)),
            None => Ok((seen.written.clone(), slack)),
        };
        assert_eq!(told, expected, "{} on {before:?}", self.call.what);
        for (output, expected) in outputs.iter().zip(&seen.outputs) {
            output.holds(expected);
        }
        kept.holds(after);
        self.numbers.iter().for_each(|(x, was)| x.holds(was));
        self.values.iter().for_each(|(x, was)| x.holds(was));
        self.bytes.iter().for_each(|(x, was)| x.holds(was));
    }
}

/// The archive's call on a session.
pub fn on_session(call: &Call, kept: &mut [u8], x: &Given, out: &mut [&mut [u8]]) -> Told {
    let (scheme, none) = (call.scheme as u32, Slack::default());
    match (
        &call.inputs,
        &x.numbers[..],
        &x.values[..],
        &x.bytes[..],
        out,
    ) {
        (Inputs::Offer { .. }, [a], [s, e], [seed], [message]) => {
            let done = session::offer(kept, scheme, a, s, e, seed, message);
            done.map(|m| (vec![m], none))
        }
        (Inputs::Reply { .. }, [a], [s1, e1, e2], [opening, coins], [message, key, digest]) => {
            let done = session::reply(
                kept, scheme, opening, a, s1, e1, e2, coins, message, key, digest,
            );
            done.map(|n| (vec![n.message, n.key, n.digest], none))
        }
        (Inputs::Finish { .. }, [], [s], [reply], [key, digest]) => {
            let done = session::finish(kept, scheme, reply, s, key, digest);
            done.map(|n| (vec![n.key, n.digest], n.slack))
        }
        (Inputs::Close, ..) => {
            session::close(kept);
            Ok((vec![], none))
        }
        _ => panic!("other inputs than the call's"),
    }
}

/// Every sequence of up to so many calls; how many there were.
fn sequences(first: u64, other: u64, longest: usize) -> usize {
    let calls = alphabet(first, other);
    let ready = Ready::all(&calls);
    let mut made = 0;
    all_sequences(&calls, longest, &mut |steps| {
        let (last, before) = steps.split_last().expect("one call or more");
        let before = before.last().map_or([0; BYTES], |step| step.after);
        let which = calls.iter().position(|call| std::ptr::eq(call, last.call));
        let ready = &ready[which.expect("one of them")];
        ready.held(&before, &last.seen, &last.after, &on_session);
        made += 1;
    });
    made
}

/// All of up to four calls of NewHope, with some of Frodo Challenge and of no
/// scheme.
#[test]
fn all_of_four_calls() {
    assert_eq!(sequences(1, 2, 4), 13 + 169 + 2197 + 28561);
}

/// All of up to three in every scheme, each beside another.
#[test]
fn all_of_three_calls_in_every_scheme() {
    for first in 0..6 {
        assert_eq!(sequences(first, (first + 1) % 6, 3), 13 + 169 + 2197);
    }
}

/// Sessions of a scheme in each stage: idle, offered, and keyed with a key that
/// has no zero byte.
fn stages(scheme: u64) -> [[u8; BYTES]; 3] {
    let (mut offered, mut keyed) = ([0; BYTES], [0; BYTES]);
    offered[..2].copy_from_slice(&[1, scheme as u8]);
    keyed[..2].copy_from_slice(&[2, scheme as u8]);
    let key = &mut keyed[2..][..SIX[scheme as usize].key_bytes];
    key.iter_mut().zip(1..).for_each(|(byte, k)| *byte = k);
    [[0; BYTES], offered, keyed]
}

/// Each byte of a session changed, in each stage and to several others. What is
/// then in no stage is refused by 10 and stays as it is; what is in another one
/// moves from there.
#[test]
fn each_byte_changed() {
    let (mut none, mut some) = (0, 0);
    for scheme in 0..3 {
        let calls = alphabet(scheme, (scheme + 1) % 3);
        // Offer, Reply and Finish, all good, and Close
        let (good, close) = (&calls[..3], calls.last());
        let ready: Vec<Ready> = good.iter().chain(close).map(Ready::new).collect();
        for stage in stages(scheme) {
            for (at, bits) in (0..BYTES).flat_map(|at| [1, 2, 3, 128, 255].map(|bits| (at, bits))) {
                let mut bytes = stage;
                bytes[at] ^= bits;
                let found = parse(&bytes);
                assert_eq!(Stage::of(&bytes).is_some(), found.is_some());
                *(if found.is_some() {
                    &mut some
                } else {
                    &mut none
                }) += 1;
                for ready in &ready {
                    let mut after = bytes;
                    let seen = ready.call.run(&mut after);
                    if found.is_none() && !ready.closes() {
                        assert_eq!((seen.refusal, after), (Some(refusal(10, 0)), bytes));
                    }
                    ready.held(&bytes, &seen, &after, &on_session);
                }
            }
        }
    }
    assert_eq!(none + some, 3 * 3 * 130 * 5);
    assert!(some > 800, "{some} in a stage");
}

/// Buffers of other lengths, in each stage as far as they go, and others that no
/// call leaves: 10, and they stay; but Close zeroes them.
#[test]
fn buffers_in_no_stage() {
    let calls = alphabet(1, 0);
    let ready = Ready::all(&calls);
    let mut buffers = in_no_stage();
    for stage in stages(1) {
        for length in (0..2 * BYTES).filter(|&length| length != BYTES) {
            let mut bytes = stage.to_vec();
            bytes.resize(length, 0);
            buffers.push(bytes);
        }
    }
    for bytes in buffers {
        assert_eq!(Stage::of(&bytes), None);
        for ready in &ready {
            let (seen, after) = match ready.closes() {
                true => (ready.call.beneath().clone(), vec![0; bytes.len()]),
                false => (ready.call.refused(refusal(10, 0)), bytes.clone()),
            };
            ready.held(&bytes, &seen, &after, &on_session);
        }
    }
}

/// The stage as this package reads it, for each two bytes that a session can
/// begin with.
#[test]
fn stages_are_read_alike() {
    use second::session::Stage::{Idle, Keyed, Offered};
    for begins in 0..=u16::MAX {
        let mut bytes = [0; BYTES];
        bytes[..2].copy_from_slice(&begins.to_le_bytes());
        let expected = parse(&bytes).map(|session| match session.stage {
            Idle => ("idle", None),
            Offered(scheme) => ("offered", Some(scheme.number)),
            Keyed(scheme) => ("keyed", Some(scheme.number)),
        });
        let number = |stage: Stage| stage.scheme().map(|scheme| u64::from(scheme.number()));
        let told = Stage::of(&bytes).map(|stage| (stage.name(), number(stage)));
        assert_eq!(told, expected);
    }
}
