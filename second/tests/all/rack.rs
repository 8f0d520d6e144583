//! 02, request k: eight studios, one rack.

use second::rack::{self, clear, close, interleavings, odd_racks, run};
use second::rack::{BYTES, RECORD, STUDIOS};
use second::refusal::{refusal, Refusal};
use second::schemes::SIX;
use second::session::{self, alphabet, Call, Inputs, Name, Seen};
use std::collections::BTreeMap;

const WRONG_STAGE: Refusal = Refusal {
    number: 10,
    place: 0,
};
const NO_STUDIO: Refusal = Refusal {
    number: 16,
    place: 0,
};

const NO_STUDIOS: [u64; 6] = [8, 9, 255, 256, 4294967295, u64::MAX];

fn empty() -> Vec<u8> {
    let mut rack = vec![0xAA; BYTES];
    assert_eq!(clear(&mut rack), Ok(()));
    rack
}

fn record(rack: &[u8], studio: u64) -> Vec<u8> {
    rack[studio as usize * RECORD..][..RECORD].to_vec()
}

/// The rack but for one studio's record.
fn others(rack: &[u8], studio: u64) -> Vec<u8> {
    let mut rack = rack.to_vec();
    rack.drain(studio as usize * RECORD..(studio as usize + 1) * RECORD);
    rack
}

fn calls() -> Vec<Call> {
    alphabet(2, 1)
}

#[test]
fn a_rack_of_1048_bytes() {
    assert_eq!((BYTES, RECORD, STUDIOS), (1048, 131, 8));
    let rack = empty();
    let mut expected = vec![0; 1048];
    for (at, number) in [0, 131, 262, 393, 524, 655, 786, 917].into_iter().zip(0..) {
        expected[at] = number;
    }
    assert_eq!(rack, expected);
    // Of another length it is 10, and stays.
    for length in [0, 1, 131, 1047, 1049, 2096] {
        let mut rack = vec![0xAA; length];
        assert_eq!(clear(&mut rack), Err(WRONG_STAGE));
        assert_eq!(rack, vec![0xAA; length]);
    }
}

#[test]
fn one_studio_by_hand() {
    let calls = calls();
    let [offer, reply, finish, ..] = &calls[..] else {
        panic!("thirteen calls");
    };
    let mut rack = empty();
    assert_eq!(run(offer, &mut rack, 3), *offer.beneath());
    let mut expected = empty();
    (expected[393], expected[394], expected[395]) = (3, 1, 2);
    assert_eq!(rack, expected);

    assert_eq!(run(reply, &mut rack, 3), reply.refused(WRONG_STAGE));
    assert_eq!(rack, expected);
    assert_eq!(run(reply, &mut rack, 7), *reply.beneath());
    (expected[917], expected[918], expected[919]) = (7, 2, 2);
    expected[920..928].copy_from_slice(&reply.beneath().key(Name::Reply));
    assert_eq!(rack, expected);

    assert_eq!(run(finish, &mut rack, 3), *finish.beneath());
    expected[394] = 2;
    expected[396..404].copy_from_slice(&finish.beneath().key(Name::Finish));
    assert_eq!(rack, expected);

    assert_eq!(close(&mut rack, 3), Ok(()));
    expected[394..524].fill(0);
    assert_eq!(rack, expected);
    assert_eq!(expected[393], 3);
}

#[test]
fn number_16_comes_before_10_and_all_others() {
    for length in [0, 130, BYTES, BYTES + 1] {
        for studio in NO_STUDIOS {
            let mut lent = vec![0xAA; length];
            let mut out = [0xAA; 9];
            let told = rack::offer(&mut lent, studio, 6, &[], &[], &[], &[], &mut out);
            assert_eq!((told, out), (Err(NO_STUDIO), [0; 9]));

            let (mut key, mut digest) = ([0xAA; 8], [0xAA; 7]);
            out.fill(0xAA);
            let told = rack::reply(
                &mut lent,
                studio,
                6,
                &[],
                &[],
                &[],
                &[],
                &[],
                &[],
                &mut out,
                &mut key,
                &mut digest,
            );
            assert_eq!((told, out), (Err(NO_STUDIO), [0; 9]));
            assert_eq!((key, digest), ([0; 8], [0; 7]));

            key.fill(0xAA);
            digest.fill(0xAA);
            let told = rack::finish(&mut lent, studio, 6, &[], &[], &mut key, &mut digest);
            assert_eq!((told, key, digest), (Err(NO_STUDIO), [0; 8], [0; 7]));

            assert_eq!(close(&mut lent, studio), Err(NO_STUDIO));
            assert_eq!(lent, vec![0xAA; length]);
        }
    }
    // Studio 7 is the last; then 10 comes before 1, and 1 after both.
    let mut lent = vec![0xAA; BYTES];
    let told = rack::offer(&mut lent, 7, 6, &[], &[], &[], &[], &mut []);
    assert_eq!(told, Err(WRONG_STAGE));
    let told = rack::offer(&mut empty(), 7, 6, &[], &[], &[], &[], &mut []);
    assert_eq!(told, Err(refusal(1, 0)));
}

#[test]
fn close_leaves_the_number_and_zeros() {
    for studio in 0..8 {
        for byte in [0, 1, 0xAA, 0xFF] {
            let mut rack = vec![byte; BYTES];
            assert_eq!(close(&mut rack, studio), Ok(()));
            let mut expected = [0; RECORD];
            expected[0] = studio as u8;
            assert_eq!(record(&rack, studio), expected);
            assert_eq!(others(&rack, studio), vec![byte; BYTES - RECORD]);
        }
        for length in [0, 131, BYTES - 1, BYTES + 1] {
            let mut rack = vec![0xAA; length];
            assert_eq!(close(&mut rack, studio), Err(WRONG_STAGE));
            assert_eq!(rack, vec![0xAA; length]);
        }
    }
}

/// The call by the functions on slices, its outputs before it full of a byte.
fn by_slices(call: &Call, lent: &mut [u8], studio: u64) -> Seen {
    let mut outputs: Vec<Vec<u8>> = call.rooms.iter().map(|&room| vec![0xAA; room]).collect();
    let mut slack = Default::default();
    let no = call.scheme;
    let told = match (&call.inputs, &mut outputs[..]) {
        (Inputs::Offer { a, s, e, seed }, [message]) => {
            rack::offer(lent, studio, no, a, s, e, seed, message).map(|m| vec![m])
        }
        (
            Inputs::Reply {
                opening,
                a,
                s1,
                e1,
                e2,
                coins,
            },
            [message, key, digest],
        ) => {
            let told = rack::reply(
                lent, studio, no, opening, a, s1, e1, e2, coins, message, key, digest,
            );
            told.map(|(m, k, d)| vec![m, k, d])
        }
        (Inputs::Finish { reply, s }, [key, digest]) => {
            let told = rack::finish(lent, studio, no, reply, s, key, digest);
            told.map(|(k, d, used)| {
                slack = used;
                vec![k, d]
            })
        }
        (Inputs::Close, []) => close(lent, studio).map(|()| vec![]),
        _ => panic!("each output has a room"),
    };
    Seen {
        refusal: told.as_ref().err().copied(),
        written: told.unwrap_or(vec![0; call.rooms.len()]),
        outputs,
        slack,
    }
}

#[test]
fn odd_racks_by_the_functions_on_slices() {
    let calls = calls();
    let mut seen = BTreeMap::new();
    for (at, before) in odd_racks().into_iter().enumerate() {
        for studio in [0, 1, 3, 7, 8] {
            // A good call costs time: it is made on every seventh rack alone.
            let cheap = |call: &&Call| call.beneath().refusal.is_some();
            let made = |call: &&Call| at % 7 == 0 || cheap(call) || call.name() == Name::Close;
            for call in calls.iter().filter(made) {
                let mut lent = before.clone();
                let told = by_slices(call, &mut lent, studio);
                let mut ran = before.clone();
                assert_eq!(run(call, &mut ran, studio), told);
                assert_eq!(ran, lent);
                if told.refusal.is_some() {
                    assert_eq!(lent, before);
                } else {
                    assert_eq!(others(&lent, studio), others(&before, studio));
                }
                let number = told.refusal.map_or(0, |refused| refused.number);
                let close = call.name() == Name::Close;
                *seen.entry((close, number)).or_insert(0) += 1;
            }
        }
    }
    let kinds: Vec<(bool, u32)> = seen.keys().copied().collect();
    let (no, yes) = (false, true);
    let expected = [
        (no, 0),
        (no, 1),
        (no, 6),
        (no, 10),
        (no, 16),
        (no, 17),
        (yes, 0),
        (yes, 10),
        (yes, 16),
    ];
    assert_eq!(kinds, expected, "{seen:?}");
}

#[test]
fn another_slots_bytes_decide_nothing() {
    let calls = calls();
    let offer = &calls[0];
    for studio in 0..8 {
        let mut rack = vec![0xAA; BYTES];
        assert_eq!(run(offer, &mut rack, studio), offer.refused(WRONG_STAGE));
        close(&mut rack, studio).unwrap();
        assert_eq!(run(offer, &mut rack, studio), *offer.beneath());
        assert_eq!(others(&rack, studio), vec![0xAA; BYTES - RECORD]);
        // The own number counts, and that of a neighbour doesn't.
        let mut rack = empty();
        rack[studio as usize * RECORD] = (studio as u8 + 1) % 8;
        assert_eq!(run(offer, &mut rack, studio), offer.refused(WRONG_STAGE));
        assert_eq!(run(offer, &mut rack, (studio + 1) % 8), *offer.beneath());
    }
}

#[test]
fn no_common_count_or_limit() {
    let calls = calls();
    let mut rack = empty();
    for _ in 0..5 {
        for studio in 0..8 {
            assert_eq!(run(&calls[1], &mut rack, studio).refusal, None);
        }
        for studio in 0..8 {
            close(&mut rack, studio).unwrap();
        }
    }
    assert_eq!(rack, empty());
}

#[test]
fn interleaved_as_alone() {
    let calls = calls();
    let steps = interleavings(&calls, 1, 3000);
    assert_eq!(steps.len(), 3000);
    // Eight sessions, each run alone.
    let mut alone = [[0; session::BYTES]; STUDIOS];
    let mut before = empty();
    let mut seen = BTreeMap::new();
    for step in &steps {
        let number = step.seen.refusal.map_or(0, |refused| refused.number);
        match step.call {
            None => {
                assert_eq!(number, 0);
                assert_eq!(step.after, empty());
                alone = [[0; session::BYTES]; STUDIOS];
            }
            Some(call) if step.studio > 7 => {
                assert_eq!(step.seen, call.refused(NO_STUDIO));
                assert_eq!(step.after, before);
            }
            Some(call) => {
                let session = &mut alone[step.studio as usize];
                assert_eq!(call.run(session), step.seen);
                assert_eq!(
                    others(&step.after, step.studio),
                    others(&before, step.studio)
                );
            }
        }
        for (studio, session) in alone.iter().enumerate() {
            let expected = [&[studio as u8][..], session].concat();
            assert_eq!(record(&step.after, studio as u64), expected);
        }
        before.clone_from(&step.after);
        let name = step.call.map(|call| call.name());
        *seen.entry((name, number)).or_insert(0) += 1;
    }
    // Every call is accepted, and refused by 10 and by 16.
    for name in [Name::Offer, Name::Reply, Name::Finish] {
        for number in [0, 10, 16] {
            assert!(seen[&(Some(name), number)] > 10, "{seen:?}");
        }
    }
    assert!(seen[&(Some(Name::Close), 0)] > 100, "{seen:?}");
    assert!(seen[&(None, 0)] > 1, "{seen:?}");
    // Another seed goes another way.
    let studios = |seed| -> Vec<u64> {
        let steps = interleavings(&calls, seed, 50);
        steps.iter().map(|step| step.studio).collect()
    };
    assert_eq!(studios(1), studios(1));
    assert_ne!(studios(1), studios(2));
}

#[test]
fn every_scheme_in_its_studio() {
    // Six studios with six schemes at once.
    let known: Vec<Vec<Call>> = SIX.iter().map(|s| alphabet(s.number, s.number)).collect();
    let mut rack = empty();
    for (studio, calls) in known.iter().enumerate() {
        assert_eq!(
            run(&calls[0], &mut rack, studio as u64),
            *calls[0].beneath()
        );
    }
    for (studio, calls) in known.iter().enumerate().rev() {
        let told = run(&calls[2], &mut rack, studio as u64);
        assert_eq!(told, *calls[2].beneath());
        let key = told.key(Name::Finish);
        let expected = [&[studio as u8, 2, studio as u8], &key[..]].concat();
        assert_eq!(record(&rack, studio as u64)[..expected.len()], expected);
    }
}
