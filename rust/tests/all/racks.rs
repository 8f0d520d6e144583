//! The calls on a rack, held to the second program and to eight sessions run
//! alone: calls of all studios in any order, racks that no call leaves, and each
//! byte of a rack changed. As in `sessions.rs` all is compared after each call.

use crate::generator::Generator;
use crate::inputs::Inputs;
use crate::lent::Lent;
use crate::sessions::{on_session, Given, Make, Ready, Told};
use second::rack::{clear, interleavings, odd_racks, run, BYTES, RECORD, STUDIOS};
use second::refusal::refusal;
use second::schemes::SIX;
use second::session::{alphabet, Call, Inputs as Lends};
use std::thread;
use wimmostry::raw::{rack, Slack};
use wimmostry::{Offered, Rack, Refusal, Replier, Scheme, Secret, Session, Stage, Studio};
use wimmostry::{RACK, SESSION};

/// The archive's call for a studio in a rack.
fn on_rack(studio: u64) -> Box<Make> {
    Box::new(move |call, kept, x, out| for_studio(studio as u32, call, kept, x, out))
}

fn for_studio(studio: u32, call: &Call, kept: &mut [u8], x: &Given, out: &mut [&mut [u8]]) -> Told {
    let (scheme, none) = (call.scheme as u32, Slack::default());
    match (
        &call.inputs,
        &x.numbers[..],
        &x.values[..],
        &x.bytes[..],
        out,
    ) {
        (Lends::Offer { .. }, [a], [s, e], [seed], [message]) => {
            let done = rack::offer(kept, studio, scheme, a, s, e, seed, message);
            done.map(|m| (vec![m], none))
        }
        (Lends::Reply { .. }, [a], [s1, e1, e2], [opening, coins], [message, key, digest]) => {
            let done = rack::reply(
                kept, studio, scheme, opening, a, s1, e1, e2, coins, message, key, digest,
            );
            done.map(|n| (vec![n.message, n.key, n.digest], none))
        }
        (Lends::Finish { .. }, [], [s], [reply], [key, digest]) => {
            let done = rack::finish(kept, studio, scheme, reply, s, key, digest);
            done.map(|n| (vec![n.key, n.digest], n.slack))
        }
        (Lends::Close, ..) => rack::close(kept, studio).map(|()| (vec![], none)),
        _ => panic!("other inputs than the call's"),
    }
}

/// What the second program makes of a call, and the archive.
fn one(ready: &Ready, before: &[u8], studio: u64) {
    let mut after = before.to_vec();
    let seen = run(ready.call, &mut after, studio);
    ready.held(before, &seen, &after, &*on_rack(studio));
}

fn empty() -> Vec<u8> {
    let mut rack = vec![0; BYTES];
    clear(&mut rack).expect("a rack of its length");
    rack
}

fn record(rack: &[u8], studio: usize) -> &[u8] {
    &rack[studio * RECORD..][..RECORD]
}

/// Clear by the archive: the rack is the empty one, and the guards are untouched.
fn cleared(before: &[u8]) {
    let mut kept = Lent::new(before, 9);
    assert_eq!(rack::clear(kept.entries_mut()), Ok(()));
    kept.holds(&empty());
}

/// So many calls of all studios in any order, from an empty rack on; and what each
/// studio sees by a session of its own.
fn interleaved(first: u64, other: u64, seed: u64, count: usize) {
    let calls = alphabet(first, other);
    let ready = Ready::all(&calls);
    let mut before = empty();
    let mut alone = vec![[0; RECORD - 1]; STUDIOS];
    for step in interleavings(&calls, seed, count) {
        let Some(call) = step.call else {
            cleared(&before);
            alone.fill([0; RECORD - 1]);
            before = step.after;
            continue;
        };
        let which = calls.iter().position(|one| std::ptr::eq(one, call));
        let ready = &ready[which.expect("one of them")];
        ready.held(&before, &step.seen, &step.after, &*on_rack(step.studio));
        match alone.get_mut(step.studio as usize) {
            None => assert_eq!(step.seen, call.refused(refusal(16, 0))),
            Some(own) => {
                let after = &record(&step.after, step.studio as usize)[1..];
                ready.held(own, &step.seen, after, &on_session);
                own.copy_from_slice(after);
            }
        }
        for (studio, own) in alone.iter().enumerate() {
            let expected = [&[studio as u8], &own[..]].concat();
            assert_eq!(record(&step.after, studio), expected);
        }
        before = step.after;
    }
}

#[test]
fn in_any_order() {
    interleaved(1, 2, 1, 3000);
    interleaved(2, 0, 2, 1000);
    interleaved(4, 3, 3, 300);
    interleaved(5, 1, 4, 300);
}

/// Racks of other lengths, with other numbers and with slots in no stage, for
/// every studio and for some that there are not.
#[test]
fn odd_ones() {
    let calls = alphabet(1, 2);
    let ready = Ready::all(&calls);
    for before in odd_racks() {
        for studio in (0..9).chain([255, 256, 1 << 31, u64::from(u32::MAX)]) {
            for ready in &ready {
                one(ready, &before, studio);
            }
        }
        let mut kept = Lent::new(&before, 9);
        let told = rack::clear(kept.entries_mut());
        match before.len() {
            BYTES => assert_eq!(told, Ok(())),
            _ => assert_eq!(told, Err(Refusal::OutOfStage)),
        }
        match before.len() {
            BYTES => kept.holds(&empty()),
            _ => kept.holds(&before),
        }
    }
}

/// A rack with studios in every stage.
fn busy(calls: &[Call]) -> Vec<u8> {
    let mut rack = empty();
    for (studio, which) in [(0, 0), (1, 1), (3, 0), (4, 1), (6, 6), (7, 7)] {
        assert_eq!(run(&calls[which], &mut rack, studio).refusal, None);
    }
    rack
}

/// Each byte of a rack changed. In the studio's own slot a changed number is 10,
/// and it stays; a byte of another slot decides nothing, and stays too.
#[test]
fn each_byte_changed() {
    let calls = alphabet(1, 2);
    // Offer, Reply and Finish of NewHope, all good, and Close
    let (good, close) = (&calls[..3], calls.last());
    let ready: Vec<Ready> = good.iter().chain(close).map(Ready::new).collect();
    let whole = busy(&calls);
    for at in 0..BYTES {
        let studio = at / RECORD;
        let own = at % RECORD == 0;
        let mut rack = whole.clone();
        rack[at] ^= [1, 8, 255][at % 3];
        for ready in &ready {
            let mut after = rack.clone();
            let seen = run(ready.call, &mut after, studio as u64);
            if own && !ready.closes() {
                assert_eq!(seen, ready.call.refused(refusal(10, 0)));
                assert_eq!(after, rack);
            }
            ready.held(&rack, &seen, &after, &*on_rack(studio as u64));

            // for another studio all is as if the byte had not been changed
            let other = (studio + 1 + at % 7) % STUDIOS;
            let mut undamaged = whole.clone();
            let seen = run(ready.call, &mut undamaged, other as u64);
            undamaged[at] = rack[at];
            ready.held(&rack, &seen, &undamaged, &*on_rack(other as u64));
        }
    }
}

/// Close leaves the number and 130 zeros, whatever the slot held.
#[test]
fn closed_slots_are_zero() {
    for studio in 0..STUDIOS {
        for byte in [0, 1, 0xAA, 0xFF] {
            let mut kept = Lent::new(&[byte; BYTES], 9);
            assert_eq!(rack::close(kept.entries_mut(), studio as u32), Ok(()));
            let mut expected = vec![byte; BYTES];
            expected[studio * RECORD..][..RECORD].fill(0);
            expected[studio * RECORD] = studio as u8;
            kept.holds(&expected);
        }
    }
}

// ---- the type

/// Good inputs of a scheme.
fn drawn(number: usize) -> Inputs {
    Inputs::random(&SIX[number], &mut Generator::new(190 + number as u64))
}

fn replier(i: &mut Inputs) -> Replier<'_> {
    Replier::new(
        Scheme::try_from(i.scheme.number as u32).expect("one of six"),
        Secret::new(&mut i.s1),
        Secret::new(&mut i.e1),
        Secret::new(&mut i.e2),
        Secret::new(&mut i.coins),
    )
}

/// A link between two studios of one rack.
#[test]
fn two_studios_of_one_rack() {
    let [left, right] = [2, 5].map(|number| Studio::try_from(number).expect("one of eight"));
    let (mut bytes, number) = ([9; RACK], 2);
    let (mut i, mut peer) = (drawn(number), drawn(number));
    let (scheme, a) = (Scheme::FrodoChallenge, i.a.clone());
    let (_, expected) = i.reply_and_key(&i.opening());
    let mut rack = Rack::new(&mut bytes);
    let (mut room, mut message) = (vec![9; 3888], vec![9; 3880]);
    let (s, e) = (Secret::new(&mut i.s), Secret::new(&mut i.e));
    let offered = rack.offer(left, scheme, &a, s, e, &i.seed, &mut room);
    let Offered {
        initiator, opening, ..
    } = offered.expect("good inputs");
    assert_eq!(rack.stage(left), Some(Stage::Offered(scheme)));
    assert_eq!(
        (rack.stage(right), rack.key(left)),
        (Some(Stage::Idle), None)
    );
    let answered = rack.reply(right, replier(&mut peer), opening, &a, &mut message);
    let answered = answered.expect("good inputs");
    assert_eq!(rack.key(right), Some(&expected[..]));

    // the other studio has not offered
    let refused = rack.finish(right, initiator, answered.message);
    let unfinished = refused.expect_err("keyed");
    assert_eq!(unfinished.refusal, Refusal::OutOfStage);
    let linked = rack.finish(left, unfinished.initiator, answered.message);
    assert_eq!(linked.expect("good inputs").digest, answered.digest);
    assert_eq!(rack.key(left), rack.key(right));
    assert_eq!(rack.session(left).key(), Some(&expected[..]));
    let shown = format!("{rack:?}");
    assert_eq!(shown.matches("Some(Keyed(FrodoChallenge))").count(), 2);
    assert_eq!(shown.matches("Some(Idle)").count(), 6);

    rack.close(left);
    assert_eq!(
        (rack.stage(left), rack.key(left)),
        (Some(Stage::Idle), None)
    );
    assert_eq!(rack.key(right), Some(&expected[..]));
    drop(rack);
    assert_eq!(bytes[..], empty(), "dropped");
}

/// Swapped, a session of a rack and one of its own stay what they are: the one is kept
/// by its rack when it is dropped, the other is closed.
#[test]
fn swapped_sessions() {
    let mut i = drawn(2);
    let (opening, a, studio) = (i.opening(), i.a.clone(), Studio::ALL[4]);
    let (mut message, expected) = i.reply_and_key(&opening);
    let (mut bytes, mut own_bytes) = ([0; RACK], [0; SESSION]);
    let mut rack = Rack::new(&mut bytes);
    let mut slot = rack.session(studio);
    let replied = slot.reply(replier(&mut i), &opening, &a, &mut message);
    assert!(replied.is_ok());
    let mut own = Session::new(&mut own_bytes);
    let mut i = drawn(2);
    let replied = own.reply(replier(&mut i), &opening, &a, &mut message);
    assert!(replied.is_ok());

    std::mem::swap(&mut slot, &mut own);
    drop((slot, own));
    assert_eq!(own_bytes, [0; SESSION]);
    assert_eq!(rack.key(studio), Some(&expected[..]));
}

/// Eight threads, each on its own studio's session; the rack has what they left.
#[test]
fn eight_threads() {
    let mut bytes = [0; RACK];
    let mut rack = Rack::new(&mut bytes);
    let keys: Vec<Vec<u8>> = thread::scope(|threads| {
        let served = Studio::ALL.into_iter().zip(rack.sessions());
        let served = served.map(|(studio, mut session)| {
            threads.spawn(move || {
                let mut i = drawn(studio.number() as usize % 6);
                let (opening, a) = (i.opening(), i.a.clone());
                let (mut message, key) = i.reply_and_key(&opening);
                let replied = session.reply(replier(&mut i), &opening, &a, &mut message);
                assert!(replied.is_ok());
                if studio.number() % 2 == 1 {
                    session.close();
                    return vec![];
                }
                key
            })
        });
        let served: Vec<_> = served.collect();
        served
            .into_iter()
            .map(|thread| thread.join().expect("a studio's thread"))
            .collect()
    });
    for (studio, key) in Studio::ALL.into_iter().zip(keys) {
        match studio.number() % 2 {
            0 => assert_eq!(rack.key(studio), Some(&key[..])),
            _ => assert_eq!(rack.stage(studio), Some(Stage::Idle)),
        }
    }
}

#[test]
fn studios_by_number() {
    for (number, studio) in (0..).zip(Studio::ALL) {
        assert_eq!(studio.number(), number);
        assert_eq!(Studio::try_from(number), Ok(studio));
    }
    for number in [8, 9, 255, 256, u32::MAX] {
        assert_eq!(Studio::try_from(number), Err(Refusal::NoStudio));
    }
    assert_eq!(format!("{:>3}", Studio::ALL[7]), "  7");
    assert_eq!(
        Refusal::NoStudio.to_string(),
        "refusal 16: the studio's number is over 7"
    );
}

/// A slot with another studio's number is in no stage, until it is closed.
#[test]
fn kept_bytes() {
    let mut bytes: [u8; RACK] = empty().try_into().expect("a rack's length");
    bytes[3 * RECORD] = 4;
    let mut rack = Rack::resume(&mut bytes);
    let studio = Studio::ALL[3];
    assert_eq!((rack.stage(studio), rack.key(studio)), (None, None));
    assert_eq!(rack.stage(Studio::ALL[4]), Some(Stage::Idle));
    let mut i = drawn(1);
    let (opening, a, mut message) = (i.opening(), i.a.clone(), vec![9; 2048]);
    let refused = rack.reply(studio, replier(&mut i), &opening, &a, &mut message);
    assert_eq!(refused.err(), Some(Refusal::OutOfStage));
    rack.close(studio);
    assert_eq!(rack.stage(studio), Some(Stage::Idle));
}
