//! Frodo by rows, held to the second program: whole runs in every cut, refused
//! calls in between, damaged states. After each call all is compared: the answer,
//! every output from end to end, the state, the inputs and the guards around every
//! buffer.

use crate::calls::replied;
use crate::generator::Generator;
use crate::inputs::Inputs;
use crate::lent::Lent;
use second::refusal::refusal;
use second::rows::{any_state, begin, damaged, run, state_count, Call, Cut, Seen, Which};
use second::schemes::{Scheme, SIX};
use std::collections::BTreeMap;
use wimmostry::raw::{self, rows};
use wimmostry::rows::{Offering, Replying, Unended};
use wimmostry::{Refusal, Secret};

const BOTH: [Which; 2] = [Which::Offer, Which::Reply];

fn frodo() -> &'static [Scheme] {
    &SIX[2..]
}

/// The written counts, or the refusal.
type Told = Result<Vec<usize>, Refusal>;

/// Inputs between guards, by their types; each holds what it was afterwards.
#[derive(Default)]
struct Given {
    numbers: Vec<(Lent<u32>, Vec<u32>)>,
    values: Vec<(Lent<i32>, Vec<i32>)>,
    bytes: Vec<(Lent<u8>, Vec<u8>)>,
}

impl Given {
    fn of(call: &Call) -> Given {
        let values = |list: &Vec<i32>| (Lent::new(list, 7), list.clone());
        let bytes = |list: &Vec<u8>| (Lent::new(list, 7), list.clone());
        match call {
            Call::OfferBegin { s, e, seed, .. } => Given {
                values: [s, e].map(values).into(),
                bytes: vec![bytes(seed)],
                ..Given::default()
            },
            Call::ReplyBegin {
                opening,
                s1,
                e1,
                e2,
                ..
            } => Given {
                values: [s1, e1, e2].map(values).into(),
                bytes: vec![bytes(opening)],
                ..Given::default()
            },
            Call::OfferPart(part) | Call::ReplyPart(part) => Given {
                numbers: vec![(Lent::new(part, 7), part.clone())],
                ..Given::default()
            },
            Call::OfferEnd { .. } | Call::ReplyEnd { .. } => Given::default(),
        }
    }

    fn untouched(&self) {
        self.numbers.iter().for_each(|(lent, was)| lent.holds(was));
        self.values.iter().for_each(|(lent, was)| lent.holds(was));
        self.bytes.iter().for_each(|(lent, was)| lent.holds(was));
    }
}

fn rooms(call: &Call) -> Vec<usize> {
    match call {
        Call::OfferEnd { message } => vec![*message],
        Call::ReplyEnd {
            message,
            key,
            digest,
        } => vec![*message, *key, *digest],
        _ => vec![],
    }
}

/// The archive's call.
fn make(call: &Call, given: &Given, state: &mut [u32], out: &mut [Lent<u8>]) -> Told {
    let value = |k: usize| given.values[k].0.entries();
    let byte = || given.bytes[0].0.entries();
    let number = || given.numbers[0].0.entries();
    let none = |()| vec![];
    match (call, out) {
        (Call::OfferBegin { scheme, .. }, _) => {
            rows::offer_begin(*scheme as u32, value(0), value(1), byte(), state).map(none)
        }
        (Call::ReplyBegin { scheme, .. }, _) => {
            let scheme = *scheme as u32;
            rows::reply_begin(scheme, byte(), value(0), value(1), value(2), state).map(none)
        }
        (Call::OfferPart(_), _) => rows::offer_part(number(), state).map(none),
        (Call::ReplyPart(_), _) => rows::reply_part(number(), state).map(none),
        (Call::OfferEnd { .. }, [message]) => {
            rows::offer_end(state, message.entries_mut()).map(|m| vec![m])
        }
        (Call::ReplyEnd { .. }, [message, key, digest]) => rows::reply_end(
            state,
            message.entries_mut(),
            key.entries_mut(),
            digest.entries_mut(),
        )
        .map(|n| vec![n.message, n.key, n.digest]),
        _ => panic!("other outputs than the call's"),
    }
}

/// Makes the call on a state between guards, and holds it to what the second
/// program saw and left.
fn held(call: &Call, state: &mut Lent<u32>, seen: &Seen, after: &[u32]) {
    let given = Given::of(call);
    let fresh = |room: usize| Lent::new(&vec![0xA5; room], 9);
    let mut out: Vec<Lent<u8>> = rooms(call).into_iter().map(fresh).collect();
    let told = make(call, &given, state.entries_mut(), &mut out);
    let told = told.map_err(|refused| (refused.number(), refused.place()));
    let expected = match seen.refusal {
        Some(refused) => Err((refused.number, refused.place)),
        None => Ok(seen.written.clone()),
    };
    assert_eq!(told, expected);
    for (output, expected) in out.iter().zip(&seen.outputs) {
        output.holds(expected);
    }
    state.holds(after);
    given.untouched();
}

/// A call on a state of its own.
fn alone(call: &Call, before: &[u32]) -> Seen {
    let mut after = before.to_vec();
    let seen = call.run(&mut after);
    held(call, &mut Lent::new(before, 9), &seen, &after);
    seen
}

/// One run; how many calls ended with each number.
fn whole(
    scheme: &'static Scheme,
    which: Which,
    cut: Cut,
    mixed: bool,
    seed: u64,
) -> BTreeMap<u32, usize> {
    let mut state = Lent::new(&vec![0xA5A5A5A5; state_count(scheme)], 9);
    let mut numbers = BTreeMap::new();
    let (ended, whole) = run(scheme, which, cut, mixed, seed, &mut |call, seen, after| {
        held(call, &mut state, seen, after);
        let number = seen.refusal.map_or(0, |refused| refused.number);
        *numbers.entry(number).or_insert(0) += 1;
    });
    assert_eq!(ended, whole, "{} {which:?} {cut:?}", scheme.name);
    numbers
}

/// All four sets, in whole rows, in all but one and one, and in cuts at random with
/// empty parts among them; ones in the smallest, where the second program is quick
/// enough.
#[test]
fn every_cut() {
    for scheme in frodo() {
        for which in BOTH {
            for cut in [Cut::Rows, Cut::AllButOne, Cut::AtRandom, Cut::Ones] {
                if scheme.n > 352 && cut == Cut::Ones {
                    continue;
                }
                let numbers = whole(scheme, which, cut, false, 3);
                assert!(numbers.keys().eq(&[0]), "nothing is refused");
            }
        }
    }
}

/// Each refusal at many points, and then on: 11 for a part past the row, of the
/// other call, behind the last row, for an early end; 4 at the last number of a part
/// and elsewhere; 3 at each output.
#[test]
fn refused_calls_in_between() {
    for scheme in frodo() {
        for which in BOTH {
            for cut in [Cut::Rows, Cut::AtRandom] {
                let numbers = whole(scheme, which, cut, true, 4);
                assert!(numbers.keys().eq(&[0, 3, 4, 11]), "{numbers:?}");
            }
        }
    }
}

/// The calls of either on a state: an empty part, one number, a row, a number too
/// many, a wrong number, an end.
fn calls(scheme: &Scheme) -> Vec<Call> {
    let parts = [
        vec![],
        vec![1],
        vec![scheme.q as u32 - 1; scheme.n],
        vec![0; scheme.n + 1],
        vec![scheme.q as u32],
    ];
    let mut calls: Vec<Call> = parts.iter().cloned().map(Call::OfferPart).collect();
    calls.extend(parts.map(Call::ReplyPart));
    calls.push(Call::OfferEnd {
        message: scheme.opening_bytes() + 2,
    });
    calls.push(Call::ReplyEnd {
        message: scheme.reply_bytes() + 2,
        key: scheme.key_bytes + 2,
        digest: 34,
    });
    calls
}

/// States out of range, of other lengths and just within range, of both calls, in
/// all four sets, at the beginning, inside a row, at a row's end, before the last row
/// of sixteen and its last number, behind it, and behind the last row; at odd places,
/// in the middle of two words of one number, as well.
#[test]
fn damaged_states() {
    let mut numbers = BTreeMap::new();
    for scheme in frodo() {
        let n = scheme.n;
        let calls = calls(scheme);
        for which in BOTH {
            for come in [0, n + 1, 2 * n - 1, 16 * n - 1, 16 * n, n * n - n, n * n] {
                for state in damaged(scheme, which, come, 11) {
                    for call in &calls {
                        let seen = alone(call, &state);
                        let number = seen.refusal.map_or(0, |refused| refused.number);
                        *numbers.entry(number).or_insert(0) += 1;
                    }
                }
            }
        }
    }
    assert!(numbers.keys().eq(&[0, 4, 11]), "{numbers:?}");
    assert!(numbers.values().all(|&count| count > 300), "{numbers:?}");
}

/// The state that the archive's begin leaves, and that state with its count at the end
/// of A, where an end has its turn.
fn begun(scheme: &'static Scheme, which: Which) -> [Vec<u32>; 2] {
    let (call, mut state) = (begin(scheme, which, 31), vec![7; state_count(scheme)]);
    let told = make(&call, &Given::of(&call), &mut state, &mut []);
    assert_eq!(told, Ok(vec![]));
    let mut full = state.clone();
    full[2] = (scheme.n * scheme.n) as u32;
    [state, full]
}

/// Every part and end of both calls is refused with 11, place 0, leaves the state as it
/// was and its outputs zero.
fn counts_as_none(scheme: &Scheme, state: &[u32]) {
    for call in calls(scheme) {
        let seen = Seen {
            refusal: Some(refusal(11, 0)),
            written: vec![],
            outputs: rooms(&call).into_iter().map(|room| vec![0; room]).collect(),
        };
        held(&call, &mut Lent::new(state, 9), &seen, state);
    }
}

/// In earlier layouts the first number of a state was 1 in Offer and 2 in Reply: what a
/// build of that time has begun counts as none.
#[test]
fn a_state_of_an_earlier_layout() {
    for scheme in frodo() {
        for (which, earlier) in BOTH.into_iter().zip([1, 2]) {
            for mut state in begun(scheme, which) {
                assert_ne!(state[0], earlier);
                state[0] = earlier;
                counts_as_none(scheme, &state);
            }
        }
    }
}

/// Each of the first 67 numbers out of range, one at a time: call, scheme, count and the
/// 64 that are kept.
#[test]
fn each_number_out_of_range() {
    for scheme in frodo() {
        let (n, q) = (scheme.n as u32, scheme.q as u32);
        for which in BOTH {
            for good in begun(scheme, which) {
                for at in 0..67 {
                    let beyond = match (at, which) {
                        (0, _) => vec![0, 1, 2, 5],
                        (1, _) => (0..8).filter(|&k| k != good[1]).collect(),
                        (2, _) => vec![n * n + 1],
                        (3..19, Which::Offer) => vec![256],
                        (_, Which::Offer) => vec![1],
                        (_, Which::Reply) => vec![q],
                    };
                    for number in [beyond, vec![1 << 31, u32::MAX]].concat() {
                        let mut state = good.clone();
                        state[at] = number;
                        counts_as_none(scheme, &state);
                    }
                }
            }
        }
    }
}

/// States in range with any numbers in them, of which the sums may wrap and the words
/// held back are q and more, and a few rows on: parts that end sixteen rows, of one and
/// of many numbers, empty parts there, and sixteen rows more up to the end; parts that
/// start or end in the middle of two words of one number, and the other word stays.
#[test]
fn random_states() {
    for scheme in frodo() {
        let n = scheme.n;
        let mut generator = Generator::new(70 + scheme.number);
        let mut parts = vec![n - 5, 0, 1, n - 1, 0, 1, n - 1];
        parts.extend([n; 12]);
        parts.extend([n / 2, n - n / 2, 1, n - 2, 1, n - 1, 0, 1, 0]);
        for which in BOTH {
            // Two rows before the last sixteen.
            let come = n * (n - 18) + 5;
            let mut after = any_state(scheme, which, come, 12);
            let sums = 67 + 4 * n..67 + 8 * n;
            let mut entered = 0;
            let mut state = Lent::new(&after, 9);
            for &length in &parts {
                let number = |byte: u8| (u32::from(byte) * 40_503) % scheme.q as u32;
                let part: Vec<u32> = generator.bytes(length).into_iter().map(number).collect();
                let call = match which {
                    Which::Offer => Call::OfferPart(part),
                    Which::Reply => Call::ReplyPart(part),
                };
                let before = after[sums.clone()].to_vec();
                let seen = call.run(&mut after);
                assert_eq!(seen.refusal, None);
                held(&call, &mut state, &seen, &after);
                entered += usize::from(after[sums.clone()] != before);
            }
            // At the end of each sixteen rows, and nowhere else.
            assert_eq!(entered, 2);
            let end = calls(scheme).split_off(10).remove(which as usize);
            let seen = end.run(&mut after);
            assert_eq!(seen.refusal, None);
            held(&end, &mut state, &seen, &after);
        }
    }
}

/// Begin on states of other lengths and with other inputs: 1, 2, 17 and 6.
#[test]
fn refused_begins() {
    let mut numbers = BTreeMap::new();
    let mut hold = |call: &Call, length: usize| {
        let seen = alone(call, &vec![0xA5A5A5A5; length]);
        *numbers
            .entry(seen.refusal.map_or(0, |refused| refused.number))
            .or_insert(0) += 1;
    };
    for (k, s) in frodo().iter().enumerate() {
        let length = state_count(s);
        for which in BOTH {
            let good = begin(s, which, 21);
            for other in frodo() {
                hold(&good, state_count(other));
            }
            for other in [0, 1, 66, 67, length - 1, length + 1, 32 * s.n + 256] {
                hold(&good, other);
            }
            for number in [0, 1, 2, 3, 4, 5, 6, 258, u64::from(u32::MAX)] {
                let mut named = good.clone();
                match &mut named {
                    Call::OfferBegin { scheme, .. } | Call::ReplyBegin { scheme, .. } => {
                        *scheme = number
                    }
                    _ => panic!("a begin"),
                }
                hold(&named, length);
            }
            // each list short by one, one more, and with a value beyond, first and last
            for list in 0..4 {
                for change in 0..5 {
                    let mut changed = good.clone();
                    let largest = s.largest_noise as i32;
                    let alter = |values: &mut Vec<i32>| {
                        let last = values.len() - 1;
                        match change {
                            0 => drop(values.pop()),
                            1 => values.push(0),
                            2 => values[0] = largest + 1,
                            3 => values[last] = -largest - 1,
                            _ => values[k] = i32::MIN,
                        }
                    };
                    let cut = |bytes: &mut Vec<u8>| match change {
                        0 => drop(bytes.pop()),
                        1 => bytes.push(0),
                        2 => bytes[16..].fill(0),
                        3 => bytes.fill(0),
                        _ => bytes.clear(),
                    };
                    match (&mut changed, list) {
                        (Call::OfferBegin { s, .. }, 0) => alter(s),
                        (Call::OfferBegin { e, .. }, 1) => alter(e),
                        (Call::OfferBegin { seed, .. }, _) if change < 2 => cut(seed),
                        (Call::OfferBegin { .. }, _) => continue,
                        (Call::ReplyBegin { s1, .. }, 0) => alter(s1),
                        (Call::ReplyBegin { e1, .. }, 1) => alter(e1),
                        (Call::ReplyBegin { e2, .. }, 2) => alter(e2),
                        (Call::ReplyBegin { opening, .. }, _) => cut(opening),
                        _ => panic!("a begin"),
                    }
                    hold(&changed, length);
                }
            }
        }
    }
    assert!(numbers.keys().eq(&[0, 1, 2, 6, 17]), "{numbers:?}");
}

/// By rows as by the archive's own calls on the whole matrix, in ones and in parts
/// of eight numbers as well, and a whole exchange of one end by rows with the other.
#[test]
fn as_the_whole_matrix() {
    for s in frodo() {
        let (i, number) = (
            Inputs::random(s, &mut Generator::new(170 + s.number)),
            s.number as u32,
        );
        let mut opening = vec![0; s.opening_bytes()];
        let made = raw::offer(number, &i.a, &i.s, &i.e, &i.seed, &mut opening);
        assert_eq!(made, Ok(opening.len()));
        let [mut reply, mut key, mut digest] =
            [s.reply_bytes(), s.key_bytes, 32].map(|room| vec![0; room]);
        let made = raw::reply(
            number,
            &opening,
            &i.a,
            &i.s1,
            &i.e1,
            &i.e2,
            &[],
            &mut reply,
            &mut key,
            &mut digest,
        );
        assert!(made.is_ok());
        let mut state = vec![7; state_count(s)];
        for length in [1, 8, s.n - 1, s.n] {
            let begun = rows::offer_begin(number, &i.s, &i.e, &i.seed, &mut state);
            assert_eq!(begun, Ok(()));
            let parts = || i.a.chunks(s.n).flat_map(|row| row.chunks(length));
            assert!(parts().all(|part| rows::offer_part(part, &mut state).is_ok()));
            let mut message = vec![1; opening.len()];
            let ended = rows::offer_end(&mut state, &mut message);
            assert_eq!(ended, Ok(opening.len()));
            assert_eq!(message, opening);
            assert!(state.iter().all(|&number| number == 0));

            let begun = rows::reply_begin(number, &opening, &i.s1, &i.e1, &i.e2, &mut state);
            assert_eq!(begun, Ok(()));
            assert!(parts().all(|part| rows::reply_part(part, &mut state).is_ok()));
            let [mut m, mut k, mut d] = [reply.len(), key.len(), 32].map(|room| vec![1; room]);
            let ended = rows::reply_end(&mut state, &mut m, &mut k, &mut d);
            assert_eq!(ended.map(replied), Ok((reply.len(), key.len(), 32)));
            assert_eq!((&m, &k, &d), (&reply, &key, &digest));
            assert!(state.iter().all(|&number| number == 0));
        }
    }
}

/// The typed ends: an exchange with refused parts and ends in between, and nothing
/// left in a buffer whose owner is done with it.
#[test]
fn typed() {
    for s in frodo() {
        let mut i = Inputs::random(s, &mut Generator::new(180 + s.number));
        let scheme = wimmostry::Scheme::try_from(s.number as u32).expect("one of six");
        let sizes = scheme.sizes();
        let (expected, wrong) = (i.opening(), [0, 0, s.q as u32]);
        let (expected_reply, expected_key) = i.reply_and_key(&expected);
        let mut room = vec![9; sizes.state + 3];
        let (e, mine) = (Secret::new(&mut i.e), Secret::new(&mut i.s));
        let begun = Offering::begin(scheme, mine, e, &i.seed, &mut room);
        let mut offering = begun.expect("good inputs");
        assert_eq!((offering.position(), offering.scheme()), ((0, 0), scheme));
        for (at, row) in i.a.chunks(s.n).enumerate() {
            assert_eq!(offering.part(&wrong), Err(Refusal::PublicOver(2)));
            assert_eq!(offering.part(&row[..5]), Ok(()));
            assert_eq!(offering.position(), (at, 5));
            assert_eq!(offering.part(row), Err(Refusal::OutOfTurn));
            assert_eq!(offering.part(&row[5..]), Ok(()));
            if at + 1 < s.n {
                let mut message = vec![9; sizes.opening];
                let unended = offering.end(&mut message).expect_err("rows are missing");
                assert_eq!(unended.refusal, Refusal::OutOfTurn);
                assert_eq!(message, vec![0; sizes.opening]);
                offering = unended.rows;
            }
        }
        assert_eq!(offering.position(), (s.n, 0));
        let unended = offering.end(&mut []).expect_err("no room");
        assert_eq!(Refusal::from(unended).number(), 3);
        assert_eq!(i.s, vec![0; sizes.s], "dropped, and s is wiped");
        assert_eq!(room, [vec![0; sizes.state], vec![9; 3]].concat());

        let mut i = Inputs::random(s, &mut Generator::new(180 + s.number));
        let (e, mine) = (Secret::new(&mut i.e), Secret::new(&mut i.s));
        let begun = Offering::begin(scheme, mine, e, &i.seed, &mut room);
        let mut offering = begun.expect("good inputs");
        i.a.chunks(s.n)
            .for_each(|row| offering.part(row).expect("a good row"));
        let mut message = vec![9; sizes.opening + 1];
        let offered = offering.end(&mut message).expect("all rows");
        assert_eq!(offered.opening, expected);

        let mut other = vec![9; sizes.state];
        let (s1, e1) = (Secret::new(&mut i.s1), Secret::new(&mut i.e1));
        let e2 = Secret::new(&mut i.e2);
        let begun = Replying::begin(scheme, offered.opening, s1, e1, e2, &mut other);
        let mut replying = begun.expect("good inputs");
        assert_eq!((&i.s1, &i.e1), (&vec![0; sizes.s], &vec![0; sizes.s]));
        assert_eq!(i.e2, vec![0; sizes.e2], "the state has what is needed");
        for row in i.a.chunks(s.n) {
            assert_eq!(replying.part(&wrong), Err(Refusal::PublicOver(2)));
            assert_eq!(replying.part(row), Ok(()));
        }
        assert_eq!((replying.position(), replying.scheme()), ((s.n, 0), scheme));
        let mut reply = vec![9; sizes.reply + 1];
        let ended = replying.end(&mut reply, &mut []);
        let Unended { refusal, rows } = ended.expect_err("no room for the key");
        assert_eq!(refusal, Refusal::Room);
        let (mut key, mut peer) = (vec![9; sizes.key], vec![9; sizes.key]);
        let replied = rows.end(&mut reply, &mut key).expect("all rows");
        assert_eq!(replied.message, expected_reply);
        assert_eq!(replied.key.bytes(), expected_key);
        assert_eq!(replied.digest.0[..], second::hash::sha3_256(&expected_key));
        let finished = offered.initiator.finish(replied.message, &mut peer);
        assert_eq!(finished.expect("a good reply").digest, replied.digest);
        assert_eq!(other, vec![0; sizes.state]);
    }
    let (mut s, mut e) = (vec![1; 1024], vec![1; 1024]);
    let (mine, noise) = (Secret::new(&mut s), Secret::new(&mut e));
    let begun = Offering::begin(wimmostry::Scheme::NewHope, mine, noise, &[0; 32], &mut []);
    assert_eq!(begun.expect_err("Frodo alone"), Refusal::NoScheme);
    assert_eq!((s, e), (vec![0; 1024], vec![0; 1024]));
}
