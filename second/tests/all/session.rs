//! 02, request a: sessions.

use crate::generator::Generator;
use crate::inputs::Inputs;
use second::refusal::{refusal, Refusal};
use second::schemes::{Scheme, SIX};
use second::session::{self, all_sequences, alphabet, close, in_no_stage, lay, parse, step};
use second::session::{Call, Name, Seen, Session, Stage, BYTES, IDLE, KEY};
use std::collections::BTreeMap;

const WRONG_STAGE: Refusal = Refusal {
    number: 10,
    place: 0,
};

fn session(stage: Stage, key: &[u8]) -> Session {
    let mut whole = [0; KEY];
    whole[..key.len()].copy_from_slice(key);
    Session { stage, key: whole }
}

/// Every stage: idle, and offered and keyed with each scheme.
fn stages() -> Vec<Session> {
    let mut all = vec![IDLE];
    for scheme in &SIX {
        all.push(session(Stage::Offered(scheme), &[]));
        all.push(session(Stage::Keyed(scheme), &vec![7; scheme.key_bytes]));
    }
    all
}

#[test]
fn a_session_of_130_bytes() {
    assert_eq!(BYTES, 130);
    assert_eq!(lay(&IDLE), [0; 130]);
    let mut offered = [0; 130];
    (offered[0], offered[1]) = (1, 4);
    assert_eq!(lay(&session(Stage::Offered(&SIX[4]), &[])), offered);
    let mut keyed = [0; 130];
    keyed[..10].copy_from_slice(&[2, 2, 1, 2, 3, 4, 5, 6, 7, 8]);
    let key = [1, 2, 3, 4, 5, 6, 7, 8];
    assert_eq!(lay(&session(Stage::Keyed(&SIX[2]), &key)), keyed);
    for session in stages() {
        assert_eq!(parse(&lay(&session)), Some(session));
    }
}

#[test]
fn what_is_a_session_and_what_is_none() {
    let mut found = 0;
    for stage in 0..=255u8 {
        for scheme in 0..=255u8 {
            let mut lent = [0; 130];
            (lent[0], lent[1]) = (stage, scheme);
            if let Some(session) = parse(&lent) {
                assert_eq!(lay(&session), lent);
                found += 1;
            }
        }
    }
    assert_eq!(found, 1 + 6 + 6);
    // One byte of the 128 that is not zero.
    for (stage, scheme, key_bytes) in [(0, 0, 0), (1, 0, 0), (1, 5, 0)].into_iter().chain(
        [128, 32, 8, 16, 32, 32]
            .into_iter()
            .zip(0..)
            .map(|(k, s)| (2, s, k)),
    ) {
        for at in 0..128 {
            let mut lent = [0; 130];
            (lent[0], lent[1], lent[2 + at]) = (stage, scheme, 1);
            assert_eq!(
                parse(&lent).is_some(),
                at < key_bytes,
                "{stage} {scheme} {at}"
            );
        }
    }
    for lent in in_no_stage() {
        assert_eq!(parse(&lent), None, "{lent:?}");
    }
    assert!(in_no_stage().len() > 40);
}

#[test]
fn the_table() {
    // Stage, call and the call's scheme that are allowed, by 02's sentences.
    let allowed = |stage: Stage, name, scheme: u64| match (name, stage) {
        (Name::Offer | Name::Reply, Stage::Idle) => true,
        (Name::Finish, Stage::Offered(with)) => with.number == scheme,
        (Name::Close, _) => true,
        _ => false,
    };
    let mut accepted = 0;
    for before in stages() {
        for name in [Name::Offer, Name::Reply, Name::Finish, Name::Close] {
            for number in 0..6 {
                let scheme = &SIX[number as usize];
                let (after, key) = match name {
                    Name::Offer => (Stage::Offered(scheme), vec![]),
                    Name::Reply | Name::Finish => (Stage::Keyed(scheme), vec![9; 5]),
                    Name::Close => (Stage::Idle, vec![]),
                };
                let mut now = before;
                let beneath = || Ok(("told", key.clone()));
                let told = step(&mut now, name, number, beneath);
                if allowed(before.stage, name, number) {
                    assert_eq!(told, Ok("told"));
                    assert_eq!(now, session(after, &key));
                    accepted += 1;
                } else {
                    assert_eq!(told, Err(WRONG_STAGE));
                    assert_eq!(now, before);
                }
                // What is refused beneath moves nothing.
                let mut now = before;
                let refused = || Err::<((), Vec<u8>), _>(refusal(6, 3));
                let told = step(&mut now, name, number, refused).unwrap_err();
                let expected = match allowed(before.stage, name, number) {
                    true => refusal(6, 3),
                    false => WRONG_STAGE,
                };
                assert_eq!(told, expected);
                assert_eq!(now, before);
            }
        }
    }
    // Offer and Reply when idle, Finish with one scheme each, Close always.
    assert_eq!(accepted, 6 + 6 + 6 + 13 * 6);
}

#[test]
fn a_call_that_is_not_allowed_is_not_made() {
    let mut offered = session(Stage::Offered(&SIX[2]), &[]);
    let beneath = || -> Result<((), Vec<u8>), Refusal> { panic!("not allowed") };
    assert_eq!(
        step(&mut offered, Name::Offer, 2, beneath),
        Err(WRONG_STAGE)
    );
    for number in [0, 1, 3, 6, u64::MAX] {
        let told = step(&mut offered, Name::Finish, number, beneath);
        assert_eq!(told, Err(WRONG_STAGE));
    }
    assert_eq!(offered, session(Stage::Offered(&SIX[2]), &[]));
}

fn offer(i: &Inputs, lent: &mut [u8], number: u64, out: &mut [u8]) -> Result<usize, Refusal> {
    session::offer(lent, number, &i.a, &i.s, &i.e, &i.seed, out)
}

/// Both ends of an exchange: the two sessions, the reply, and the initiator's
/// session before it finished.
fn link(s: &'static Scheme, i: &Inputs) -> [Vec<u8>; 4] {
    let number = s.number;
    let [mut first, mut other] = [vec![0; BYTES], vec![0; BYTES]];

    let mut opening = vec![0xAA; s.opening_bytes() + 1];
    let told = offer(i, &mut first, number, &mut opening);
    assert_eq!(told, Ok(s.opening_bytes()));
    opening.pop();
    assert_eq!(opening, i.opening());
    assert_eq!(first, lay(&session(Stage::Offered(s), &[])));
    let offered = first.clone();

    let mut reply = vec![0xAA; s.reply_bytes()];
    let (mut key, mut digest) = (vec![0xAA; s.key_bytes + 2], vec![0xAA; 32]);
    let told = session::reply(
        &mut other,
        number,
        &opening,
        &i.a,
        &i.s1,
        &i.e1,
        &i.e2,
        &i.coins,
        &mut reply,
        &mut key,
        &mut digest,
    );
    assert_eq!(told, Ok((s.reply_bytes(), s.key_bytes, 32)));
    let (plain_reply, plain_key) = i.reply_and_key(&opening);
    assert_eq!(reply, plain_reply);
    assert_eq!(key, [&plain_key[..], &[0, 0]].concat());
    assert_eq!(digest, second::hash::sha3_256(&plain_key));
    assert_eq!(other, lay(&session(Stage::Keyed(s), &plain_key)));

    let (mut peer, mut digest) = (vec![0xAA; s.key_bytes], vec![0xAA; 33]);
    let told = session::finish(&mut first, number, &reply, &i.s, &mut peer, &mut digest);
    assert_eq!(told, Ok((s.key_bytes, 32, i.slack(&reply))));
    assert_eq!(peer, plain_key);
    assert_eq!(digest[..32], second::hash::sha3_256(&plain_key));
    assert_eq!(digest[32], 0);
    [first, other, reply, offered]
}

#[test]
fn two_ends_hold_the_same_key() {
    for s in &SIX {
        let inputs = Inputs::random(s, &mut Generator::new(150 + s.number));
        let [first, other, reply, _] = link(s, &inputs);
        assert_eq!(first, other);
        assert_eq!(first[2..2 + s.key_bytes], inputs.peer(&reply));
        assert_eq!(first[2 + s.key_bytes..], vec![0; KEY - s.key_bytes]);
        assert_ne!(first[2..], [0; KEY]);
    }
}

#[test]
fn number_10_comes_before_all_others() {
    // Unknown scheme, empty inputs and no room are 1 when idle, else 10.
    for before in stages() {
        let expected = match before.stage {
            Stage::Idle => refusal(1, 0),
            _ => WRONG_STAGE,
        };
        let mut lent = lay(&before);
        let mut out = [0xAA; 9];
        let told = session::offer(&mut lent, 6, &[], &[], &[], &[], &mut out);
        assert_eq!(told, Err(expected));
        assert_eq!((out, lent), ([0; 9], lay(&before)));

        let (mut out, mut key, mut digest) = ([0xAA; 9], [0xAA; 8], [0xAA; 7]);
        let told = session::reply(
            &mut lent,
            6,
            &[],
            &[],
            &[],
            &[],
            &[],
            &[],
            &mut out,
            &mut key,
            &mut digest,
        );
        assert_eq!(told, Err(expected));
        assert_eq!((out, key, digest), ([0; 9], [0; 8], [0; 7]));
        assert_eq!(lent, lay(&before));

        // Finish is never allowed with an unknown scheme.
        let (mut key, mut digest) = ([0xAA; 8], [0xAA; 7]);
        let told = session::finish(&mut lent, 6, &[], &[], &mut key, &mut digest);
        assert_eq!(told, Err(WRONG_STAGE));
        assert_eq!((key, digest), ([0; 8], [0; 7]));
        assert_eq!(lent, lay(&before));
    }
    // With the scheme of the stage it is the length that is refused.
    let mut lent = lay(&session(Stage::Offered(&SIX[3]), &[]));
    let told = session::finish(&mut lent, 3, &[], &[], &mut [], &mut []);
    assert_eq!(told, Err(refusal(2, 0)));
}

#[test]
fn refused_and_tried_again() {
    let s = &SIX[2];
    let inputs = Inputs::random(s, &mut Generator::new(160));
    let [first, _, reply, offered] = link(s, &inputs);

    let mut lent = offered.clone();
    let (mut key, mut digest) = (vec![0xAA; 8], vec![0xAA; 32]);
    let mut finish = |lent: &mut [u8], number, reply: &[u8], s: &[i32]| {
        session::finish(lent, number, reply, s, &mut key, &mut digest).map(|_| ())
    };
    let mut beyond = inputs.s.clone();
    beyond[11] = 4;
    for _ in 0..2 {
        let told = finish(&mut lent, 2, &reply, &beyond);
        assert_eq!(told, Err(refusal(6, 11)));
        assert_eq!(lent, offered);
        let told = finish(&mut lent, 3, &reply, &inputs.s);
        assert_eq!(told, Err(WRONG_STAGE));
        assert_eq!(lent, offered);
    }
    assert_eq!(finish(&mut lent, 2, &reply, &inputs.s), Ok(()));
    assert_eq!(lent, first);
    // Keyed: no call but Close, and the key stays.
    assert_eq!(finish(&mut lent, 2, &reply, &inputs.s), Err(WRONG_STAGE));
    assert_eq!(finish(&mut lent, 2, &[], &[]), Err(WRONG_STAGE));
    assert_eq!(lent, first);
    let mut opening = vec![0xAA; s.opening_bytes()];
    let told = offer(&inputs, &mut lent, 2, &mut opening);
    assert_eq!(told, Err(WRONG_STAGE));
    assert_eq!(opening, vec![0; s.opening_bytes()]);
    assert_eq!(lent, first);
    close(&mut lent);
    assert_eq!(lent, [0; BYTES]);
    assert_eq!(
        offer(&inputs, &mut lent, 2, &mut opening),
        Ok(opening.len())
    );
}

#[test]
fn close_zeroes_any_bytes() {
    let mut generator = Generator::new(161);
    for length in [0, 1, 2, 129, 130, 131, 1048] {
        let mut lent = generator.bytes(length);
        close(&mut lent);
        assert_eq!(lent, vec![0; length]);
    }
    for before in stages() {
        let mut lent = lay(&before);
        close(&mut lent);
        assert_eq!(lent, [0; 130]);
    }
}

fn calls() -> Vec<Call> {
    alphabet(2, 1)
}

#[test]
fn what_the_calls_are() {
    let told: Vec<(String, u64, u32, usize)> = calls()
        .iter()
        .map(|call| {
            let refused = call.beneath().refusal.unwrap_or(refusal(0, 0));
            (
                call.what.clone(),
                call.scheme,
                refused.number,
                refused.place,
            )
        })
        .collect();
    let expected = [
        ("offer", 2, 0, 0),
        ("reply", 2, 0, 0),
        ("finish", 2, 0, 0),
        ("refused offer", 2, 6, 5),
        ("refused reply", 2, 17, 0),
        ("refused finish", 2, 6, 7),
        ("offer", 1, 0, 0),
        ("reply", 1, 0, 0),
        ("finish", 1, 0, 0),
        ("offer of no scheme", 6, 1, 0),
        ("reply of no scheme", 4294967295, 1, 0),
        ("finish of no scheme", 6, 1, 0),
        ("close", 0, 0, 0),
    ];
    let expected = expected.map(|(what, scheme, no, at)| (what.to_string(), scheme, no, at));
    assert_eq!(told, expected);
    // No two of the four keys are the same.
    let calls = calls();
    let key = |at: usize| calls[at].beneath().key(calls[at].name());
    let keys = [1, 2, 7, 8].map(key);
    assert_eq!(keys.each_ref().map(Vec::len), [8, 8, 32, 32]);
    assert_ne!(keys[0], keys[1]);
    assert_ne!(keys[2], keys[3]);
}

/// The call by the functions on slices, its outputs before it full of a byte.
fn by_slices(call: &Call, lent: &mut [u8]) -> Seen {
    use second::session::Inputs::{Close, Finish, Offer, Reply};
    let mut outputs: Vec<Vec<u8>> = call.rooms.iter().map(|&room| vec![0xAA; room]).collect();
    let mut slack = Default::default();
    let told = match (&call.inputs, &mut outputs[..]) {
        (Offer { a, s, e, seed }, [message]) => {
            session::offer(lent, call.scheme, a, s, e, seed, message).map(|m| vec![m])
        }
        (
            Reply {
                opening,
                a,
                s1,
                e1,
                e2,
                coins,
            },
            [message, key, digest],
        ) => {
            let told = session::reply(
                lent,
                call.scheme,
                opening,
                a,
                s1,
                e1,
                e2,
                coins,
                message,
                key,
                digest,
            );
            told.map(|(m, k, d)| vec![m, k, d])
        }
        (Finish { reply, s }, [key, digest]) => {
            let told = session::finish(lent, call.scheme, reply, s, key, digest);
            told.map(|(k, d, used)| {
                slack = used;
                vec![k, d]
            })
        }
        (Close, []) => {
            close(lent);
            Ok(vec![])
        }
        _ => panic!("each output has a room"),
    };
    Seen {
        refusal: told.as_ref().err().copied(),
        written: told.unwrap_or(vec![0; call.rooms.len()]),
        outputs,
        slack,
    }
}

#[test]
fn all_sequences_of_two_by_the_functions_on_slices() {
    let calls = calls();
    all_sequences(&calls, 2, &mut |steps| {
        let before = match steps {
            [.., before, _] => before.after,
            _ => [0; BYTES],
        };
        let last = steps.last().unwrap();
        let mut lent = before;
        assert_eq!(by_slices(last.call, &mut lent), last.seen);
        assert_eq!(lent, last.after);
    });
}

#[test]
fn all_sequences_of_up_to_four() {
    let calls = calls();
    let (mut count, mut ends) = (0, BTreeMap::new());
    all_sequences(&calls, 4, &mut |steps| {
        count += 1;
        // By hand: what has been accepted since the last Close, in words.
        let mut open: Option<(&str, u64)> = None;
        let mut key = vec![];
        for step in steps {
            let what = step.call.what.as_str();
            let fits = match (open, step.call.name()) {
                (None, Name::Offer | Name::Reply) => true,
                (Some(("offered", with)), Name::Finish) => with == step.call.scheme,
                (_, Name::Close) => true,
                _ => false,
            };
            if !fits {
                assert_eq!(step.seen, step.call.refused(WRONG_STAGE), "{what}");
            } else {
                assert_eq!(step.seen, *step.call.beneath(), "{what}");
                if step.seen.refusal.is_none() {
                    key = step.seen.key(step.call.name());
                    open = match what {
                        "offer" => Some(("offered", step.call.scheme)),
                        "reply" | "finish" => Some(("keyed", step.call.scheme)),
                        "close" => None,
                        _ => panic!("{what} is refused"),
                    };
                }
            }
            let stage = match open {
                None => 0,
                Some(("offered", _)) => 1,
                Some(_) => 2,
            };
            let scheme = open.map_or(0, |(_, scheme)| scheme as u8);
            let behind = vec![0; KEY - key.len()];
            let expected = [&[stage, scheme], &key[..], &behind].concat();
            assert_eq!(step.after[..], expected);
            if stage != 2 {
                assert_eq!(step.after[2..], [0; KEY]);
            }
        }
        *ends.entry(steps.last().unwrap().after).or_insert(0) += 1;
    });
    assert_eq!(count, 13 + 13 * 13 + 13 * 13 * 13 + 13 * 13 * 13 * 13);
    // Idle, offered with two schemes, keyed by Reply and by Finish with two.
    assert_eq!(ends.len(), 1 + 2 + 4);
    assert!(ends.values().all(|&count| count > 100), "{ends:?}");
}

#[test]
fn in_no_stage_every_call_but_close_gives_10() {
    let calls = calls();
    for before in in_no_stage() {
        for call in &calls {
            let mut lent = before.clone();
            let seen = by_slices(call, &mut lent);
            let mut run = before.clone();
            assert_eq!(call.run(&mut run), seen);
            assert_eq!(run, lent);
            if call.name() == Name::Close {
                assert_eq!(seen.refusal, None);
                assert_eq!(lent, vec![0; before.len()]);
            } else {
                assert_eq!(seen, call.refused(WRONG_STAGE));
                assert_eq!(lent, before);
            }
        }
    }
}

#[test]
fn on_files() {
    let folder = std::env::temp_dir().join(format!("second-session-{}", std::process::id()));
    std::fs::create_dir_all(&folder).unwrap();
    let name = |name: &str| folder.join(name).to_str().unwrap().to_string();
    let put = |word: &str, bytes: &[u8]| std::fs::write(name(word), bytes).unwrap();
    let get = |word: &str| std::fs::read(name(word)).unwrap();
    // Words in capitals are files.
    let told = |words: &str| {
        let is_file = |word: &str| word.starts_with(|c: char| c.is_ascii_uppercase());
        let words = words.split(' ').map(|word| match is_file(word) {
            true => name(word),
            false => word.to_string(),
        });
        let words: Vec<String> = ["box", "session"]
            .map(str::to_string)
            .into_iter()
            .chain(words)
            .collect();
        let words: Vec<&str> = words.iter().map(String::as_str).collect();
        let output = crate::program::run(&words, b"");
        assert!(output.status.success());
        String::from_utf8(output.stdout).unwrap()
    };
    let s = &SIX[2];
    let i = Inputs::random(s, &mut Generator::new(162));
    put(
        "A",
        &i.a.iter()
            .flat_map(|x| x.to_le_bytes())
            .collect::<Vec<u8>>(),
    );
    let lists = [&i.s, &i.e, &i.s1, &i.e1, &i.e2];
    for (word, list) in ["S", "E", "S1", "E1", "E2"].into_iter().zip(lists) {
        put(
            word,
            &list
                .iter()
                .flat_map(|x| x.to_le_bytes())
                .collect::<Vec<u8>>(),
        );
    }
    put("SEED", &i.seed);
    put("FIRST", &[0; BYTES]);
    put("OTHER", &[0; BYTES]);

    assert_eq!(told("FIRST finish 2 S S K D"), "refusal=10 place=0\n");
    assert_eq!(told("FIRST offer 2 A S E SEED M"), "written=3888\n");
    assert_eq!(get("M"), i.opening());
    let replied = told("OTHER reply 2 M A S1 E1 E2 none R K D");
    assert_eq!(
        replied,
        "message_written=3880\nkey_written=8\ndigest_written=32\n"
    );
    let key = get("K");
    let finished = told("FIRST finish 2 R S K1 D1");
    let slack = i.slack(&get("R"));
    let (largest, index) = (slack.largest, slack.index);
    let expected = "key_written=8\ndigest_written=32\n".to_string();
    assert_eq!(
        finished,
        format!("{expected}slack={largest}\nslack_index={index}\n")
    );
    assert_eq!((get("K1"), get("D1")), (key.clone(), get("D")));
    assert_eq!(get("FIRST"), get("OTHER"));
    assert_eq!(get("FIRST"), lay(&session(Stage::Keyed(s), &key)));
    // Keyed: refused, with zeros in the output, and the session stays.
    assert_eq!(told("FIRST offer 2 A S E SEED M"), "refusal=10 place=0\n");
    assert_eq!(get("M"), vec![0; 3888]);
    assert_eq!(get("FIRST"), get("OTHER"));
    assert_eq!(told("FIRST close"), "");
    assert_eq!(get("FIRST"), [0; BYTES]);
    std::fs::remove_dir_all(&folder).unwrap();
}
